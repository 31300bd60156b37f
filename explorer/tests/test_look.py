"""Tests of the page: look."""
from test_base import Walk, ActionChains, Keys, MIXED_FORM


class Look(Walk):
    def test_each_control_has_a_name_and_each_button_does_something(self):
        for link in self.links():
            nodes = self.driver.execute_cdp_cmd("Accessibility.getFullAXTree", {})["nodes"]
            named = [(it["role"]["value"], it["name"]["value"]) for it in nodes
                     if any(one["name"] == "focusable" for one in it.get("properties", []))]
            fields = [name for role, name in named if role in ("textbox", "combobox", "checkbox")]
            wrong = [role for role, name in named if not name] + [it for it in fields if fields.count(it) > 1]
            self.assertEqual((wrong, self.call("idle", link), len(named) > 9), ([], [], True), link)

    def test_each_tab_looks_right_on_each_screen_and_has_the_same_texts(self):
        shown = {}
        for mode, phone in (("light", (360, 700)), ("dark", (320, 700))):
            self.media(prefers_color_scheme=mode)
            for width in self.screens((1280, 720), phone):
                self.load()
                for link in self.links():
                    texts, (controls, whole, wrong) = self.call("shownTexts"), self.call("looks")
                    self.assertEqual((wrong, whole, controls, texts), ([], width, *shown.setdefault(link, (controls, texts))), (mode, link))
            self.load(f"#forms={MIXED_FORM}&numbers=-0x1_0%2C8p%2B1h%0ANaN".replace("441F", "401F"))
            self.assertEqual(self.call("alikeParts"), [])

    def test_messages_are_live(self):
        nodes = self.driver.execute_cdp_cmd("Accessibility.getFullAXTree", {})["nodes"]
        live = {it["role"]["value"] for it in nodes for one in it.get("properties", []) if one["name"] == "live" and one["value"]["value"] != "off"}
        roles = {it: self.find(f"#{it}").get_attribute("role") for it in ("told", "summary", "same", "failed", "word-problem", "base_prefix-problem")}
        self.assertEqual((live >= {"status"}, roles), (True, {"told": "status", "summary": "status", "same": "status", "failed": "alert",
                         "word-problem": "alert", "base_prefix-problem": "status"}))

    def test_numbers_have_room_at_400_percent(self):
        for _ in self.screens((320, 180), (320, 256)):
            self.load("#numbers=1_000%0A0x1F")
            room = "find('read').scrollIntoView(); return [...Array(innerHeight).keys()].filter((y) => find('trial').contains(document.elementFromPoint(160, y))).length"
            self.assertGreaterEqual(self.run_script(room), 120)

    def test_what_has_the_focus_has_an_outline(self):
        self.find("body").send_keys(Keys.TAB)
        self.assertEqual(self.call("bare"), [])
        self.load("#language=C&numbers=1%0A08")
        self.run_script("window.seen = new Set(); document.addEventListener('focusin', ({ target }) => seen.add(target))")
        controls = """return [...document.querySelectorAll("button, input, select, textarea, summary, pre")]
            .filter((it) => it.checkVisibility() && !it.disabled && it.getAttribute("aria-selected") !== "false")"""
        ActionChains(self.driver, 0).send_keys(Keys.TAB * (len(self.run_script(controls)) + 9)).perform()
        self.assertEqual(self.run_script(f"{controls}.filter((it) => !seen.has(it)).map((it) => it.outerHTML)"), [])

    def test_a_message_moves_nothing_and_is_in_view(self):
        told = """const { left, top, width, height } = find("told").getBoundingClientRect();
            return document.elementFromPoint(left + width / 2, top + height / 2).textContent"""
        place = "return document.querySelector('#base_prefix').getBoundingClientRect().top"
        for _ in self.screens():
            self.load("#language=RUST&tab=edit")
            self.run_script("find('decimal_first_digit').scrollIntoView()")
            self.find("#decimal_first_digit").click()
            lost = "The format is not that of Rust any more. Undo brings it back."
            self.assertEqual((self.run_script(told), self.click("#undo"), self.text("#told")), (lost, None, ""))
            self.load(f"#forms={MIXED_FORM}&tab=edit")
            for text in ("5", "xyz"):
                self.find("#base_prefix").send_keys(Keys.CONTROL, "a")
                before = self.run_script(place)
                self.find("#base_prefix").send_keys(text)
                self.assertAlmostEqual(self.run_script(place), before, delta=2)
            self.type("#word", "nonsense" + Keys.ENTER)
            self.assertEqual(self.call("wordless"), [])

    def test_the_answer_is_in_view(self):
        for width in self.screens((1280, 657), (1000, 700)):
            self.load()
            self.assertEqual(self.call("outOfView"), [], width)

    def test_nothing_moves_while_the_page_loads_and_while_one_types(self):
        for _ in self.screens():
            self.load()
            self.run_script("""window.shift = 0; new PerformanceObserver((list) => list.getEntries().forEach((it) => { window.shift += it.value; }))
                .observe({ type: "layout-shift", buffered: true });""")
            self.find("#literal").send_keys("1_000.5e")
            self.run_script("return new Promise((done) => requestAnimationFrame(() => setTimeout(done, 200)))")
            self.assertLessEqual(self.run_script("return window.shift"), 0.05)

    def test_numbers_and_code_are_printed_whole(self):
        self.media("print")
        for tab, pane in {"languages": "languages", "rust": "code", "compare": "compare", "edit": "edit", "words": "words"}.items():
            self.load(f"#language=JULIA&tab={tab}&numbers=1%271{'%0A1' * 99}")
            for _ in self.screens((780, 1000), (1050, 720)):
                cut = self.run_script("""dispatchEvent(new Event("beforeprint"));
                    return [...document.querySelectorAll("body, #trial, #pane, #literal, #code")].filter((it) => !find("code").textContent
                        || it.scrollWidth > it.clientWidth || it.scrollHeight > it.clientHeight + 1).map((it) => it.outerHTML.slice(0, 50))""")
                self.assertEqual(cut, [], tab)
            shown = "[...document.querySelectorAll('button:not(.rover), #pane > *')].filter((it) => it.checkVisibility()).map((it) => it.id)"
            self.assertEqual(set(self.run_script(f"return {shown}")), {"pane-code", f"pane-{pane}"})
            text = self.find("body").text
            self.assertEqual(("button" in text, "GHC2021" in text, "1'1" in text), (False, pane == "languages", True))
            self.assertTrue(text.startswith("Peltzivar number formats"))

    def test_nothing_is_requested_and_the_policy_allows_the_page_alone(self):
        self.assertEqual(self.run_script("return performance.getEntriesByType('resource').map((it) => it.name)"), [])
        policy = self.find("meta[http-equiv=Content-Security-Policy]").get_attribute("content")
        self.assertTrue(policy.startswith("default-src 'none'; script-src 'sha256-"), policy)
