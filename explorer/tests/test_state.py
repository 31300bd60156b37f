"""Tests of the page: state."""
import re

from test_base import Walk, Keys, STANDARD, MIXED, MIXED_FORM


class State(Walk):
    def test_changes_are_undone_and_done_again(self):
        def state():
            return self.run_script("return `${page.library.formText(page.form)} ${page.state.language} ${page.state.numbers}`")

        def press(*keys):
            return lambda: self.driver.switch_to.active_element.send_keys(*keys)

        def lead(steps, states):
            for step, wanted in zip(steps, states):
                step()
                self.assertEqual(state(), wanted)

        states = [state()]
        for change in (lambda: self.type("#mantissa_radix", "16"), lambda: self.click("#no_special"), lambda: self.select("#language", "HASKELL")):
            change()
            states.append(state())
        undo, redo = (lambda: self.click("#undo")), (lambda: self.click("#redo"))
        lead([press(Keys.CONTROL, "z"), press(Keys.META, "z"), undo], states[-2::-1])
        self.assertFalse(self.find("#undo").is_enabled())
        lead([press(Keys.CONTROL, "y"), redo, press(Keys.CONTROL, Keys.SHIFT, "z")], states[1:])
        self.assertFalse(self.find("#redo").is_enabled())
        undo()
        self.click("#no_exponent_notation")
        self.assertFalse(self.find("#redo").is_enabled())
        self.wait(lambda: self.run_script("return location.hash === page.fragment()"))
        changed = state()
        lead([lambda: (self.driver.refresh(), self.wait_until_ready()), undo, undo], [changed, *states[-2:-4:-1]])
        self.load("#numbers=1_0&tab=edit")
        before = state()
        for enter in (lambda: self.select("#language", "JSON"), lambda: self.click("#read .use")):
            enter()
            entered = state()
            self.driver.back()
            self.wait(lambda: state() == before)
            lead([undo, redo], [entered, before])

    def test_what_is_lost_is_told(self):
        self.type("#word", "digit_separator=95 base_prefix=120" + Keys.ENTER)
        self.assertEqual(self.value("#base_prefix"), "x")
        self.assertIn("no flag allows the digit separator '_'", self.text("#word-problem"))
        self.run_script("page.change({ numbers: '1\\n'.repeat(130) })")
        self.assertEqual(self.text("#count"), "100 of 100 as expected; 30 lines are not read")
        self.assertEqual(self.texts("#read li")[-1], "30 lines are not read: the page reads up to 100 lines with 60 kB")
        self.run_script("page.change({ numbers: '1'.repeat(60000) })")
        self.assertEqual((self.text("#count"), self.find("#count").get_attribute("class")), ("1 line is not read", "bad"))
        self.run_script("navigator.clipboard.writeText = () => Promise.reject()")
        self.click("#copy-code")
        self.wait(lambda: self.text("#copy-code") == "not copied: press Ctrl+C")
        self.assertEqual(self.run_script("return getSelection().toString()").strip(), self.text("#code").strip())
        self.click("#copy-link")
        self.wait(lambda: self.run_script("return location.hash && getSelection().toString() === `index.html${location.hash}`"))

    def test_forty_changes_and_a_reload_leave_thirty_to_undo(self):
        self.run_script("for (let it = 1; it <= 40; it++) page.change({ numbers: `${it}` }); page.save();")
        self.driver.refresh()
        self.wait_until_ready()
        self.click("#undo")
        self.assertEqual(self.value("#literal"), "39")
        self.run_script("while (!find('undo').disabled) find('undo').click()")
        self.assertEqual(self.value("#literal"), "10")

    def test_links_have_the_whole_state(self):
        self.load("#forms=0x0A0A10006200005F000000070001400C exponent=p point=44&compare=JSON&numbers=%2B1%0A!2%203")
        self.assertEqual(self.value("#literal"), "+1\n!2 3")
        self.click("#no_special")
        self.type("#literal", "1_0 %&")
        self.wait(lambda: self.run_script("return location.hash === page.fragment()"))
        self.load(self.run_script("return location.hash"))
        self.assertEqual((self.value("#compare"), self.value("#literal")), ("JSON", "1_0 %&"))
        self.load("#numbers=1%0D%0A0x%0D2")
        self.assertEqual((self.value("#literal"), self.texts("#read .written")), ("1\n0x\n2", ["1", "0x", "2"]))
        for link, word, tab in (("#numbers=1", STANDARD, "Languages"), ("#language=JSON&amp;tab=c", "0x0A0A0A0000000000000000000000341F", "Code")):
            self.load(link)
            self.assertEqual((self.text("#panes [aria-selected=true]"), self.value(), self.text("#told")), (tab, word, ""))

    def test_what_a_link_has_in_vain_is_told(self):
        bad = ["nonsense", "0xg", "0x1 exponent=300", "0x1 point=''", "0x1 no_such=1", "0x1 integer_group_size=9"]
        wrong = [*(f"forms={it}%0A{STANDARD}" for it in bad), *(f"forms={STANDARD}%0A{it}" for it in bad),
                 "language=NONE", "compare=NONE", "tab=none", "at=1", "at=-1", "at=length", "unknown=1", 1000 * "a"]
        for part in wrong:
            self.call("follow", f"#{part}")
            wanted = re.sub(f"forms=({STANDARD}%0A)?|%0A{STANDARD}|(?<=unknown)=1", "", part)[:30]
            self.assertIn(wanted, self.text("#told"))
            forms = self.run_script("return page.state.forms.map((form) => page.library.formText(form))")
            self.assertEqual((forms, self.run_script("return page.state.at")), ([f"{STANDARD}\t"], 0))
        self.click("#no_special")
        self.assertEqual(self.text("#told"), "")

    def test_a_link_is_followed_while_the_page_is_open(self):
        self.run_script("location.hash = `#forms=${arguments[0]}&compare=JSON&tab=python`", MIXED_FORM)
        self.wait(lambda: "from peltzivar import" in self.text("#code"))
        self.assertEqual((self.value(), self.value("#exponent"), self.value("#compare")), (MIXED, "p", "JSON"))
        self.click("#undo")
        self.assertEqual(self.value(), STANDARD)

    def test_a_copied_link_of_a_file_stands_after_its_address(self):
        numbers = "\n".join(f"1_{index}" for index in range(2000))
        lines = numbers[:4001].count("\n")
        for language in ("RUST", ""):
            self.run_script("""navigator.clipboard.writeText = async (text) => { window.copied = text; };
                page.start(arguments[0]);
                page.change({ numbers: arguments[1] });
                find("copy-link").click();""", language, numbers)
            self.wait(lambda: self.text("#copy-link") == "copied")
            self.assertEqual(self.text("#told"), f"The link has the first {lines} lines alone. Copied. Send this file with this link, which stands after its address.")
            self.wait(lambda: self.text("#copy-link") == "Copy link")
            name, _, fragment = self.run_script("return window.copied").partition("#")
            self.assertEqual((name, len(fragment) < 6000), ("index.html", True))
            self.load(f"#{fragment}")
            self.assertEqual(self.value("#language"), language)
            self.assertTrue(numbers.startswith(f"{self.value('#literal')}\n1_{lines}"))

    def test_a_list_has_up_to_64_forms(self):
        forms = [f"{STANDARD} opening=a{index}" for index in range(70)]
        self.load("#forms=" + "%0A".join(forms))
        count = "return page.state.forms.length"
        self.assertEqual((self.run_script(count), "up to 64" in self.text("#told")), (64, True))
        self.run_script("page.change({ numbers: '0x1F' })")
        self.select("#add", "copy")
        self.assertEqual((self.run_script(count), self.text("#told")[:29]), (64, "A list has up to 64 forms, an"))
        self.click("#read .use")
        self.assertEqual((self.run_script(count), self.value("#literal")), (64, "0x1F"))
        self.click("#remove")
        self.select("#add", "copy")
        self.assertEqual((self.run_script(count), self.text("#told")), (64, ""))
