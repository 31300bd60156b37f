"""The page object: a browser with the page, and what a visitor does there. Each class of tests of the page is a `Walk`."""
import atexit
import pathlib
import re
import shutil
import subprocess
import sys
import unittest

HERE = pathlib.Path(__file__).resolve().parent
TOP = HERE.parent.parent
PAGE = HERE.parent / "index.html"
# Where Debian's python3-selenium is, for another python3 that is earlier in the PATH.
sys.path.append("/usr/lib/python3/dist-packages")
try:
    from selenium import webdriver
    from selenium.webdriver.chrome.options import Options
    from selenium.webdriver.chrome.service import Service
    from selenium.webdriver.common.action_chains import ActionChains
    from selenium.webdriver.common.by import By
    from selenium.webdriver.common.keys import Keys
    from selenium.webdriver.support.ui import Select, WebDriverWait
except ImportError:
    webdriver = ActionChains = Keys = Select = None

STANDARD = "0x00000A0000000000000000000000000C"
# A word with bits in each of its bytes, and among both kinds of flags.
MIXED = "0x0A0210687800005F00000FC70001441F"
MIXED_FORM = f"{MIXED} exponent=112 point=44"
# A word in which the prefix and the exponent character `e` are digits.
UNLAWFUL = "0x000010006200005F00000000000000CC"
# Words with an exponent character and a decimal point, also with bytes that need an escape or cannot be seen, without
# options, unlawful, without values of floats, in which `inf` has digits, and with a point that is a separator.
STATES = [(STANDARD, "e", "."), (STANDARD, "\\", "'"), (STANDARD, "\0", "\0"), ("0x000002095C000027000000010000000C", "^", '"'),
          ("0x0A0A0A00000000000000000000000C0C", "e", "."), ("0x0000030000000000000000000000000C", "e", "."),
          ("0x0000240000000000000000000000000C", "^", "."), ("0x00000A000000002C000000000000000C", "e", ","), (MIXED, "p", ",")]
# Texts that are tried beside those of the page: values of many digits, at the limits of types, and special values.
TEXTS = r"""1 1\5 1'5 1"5 -0 12 1F inf nan 9007199254740993 12345678901234567 12345678901234567890 -9223372036854775809 123456789.12345678
0.30000000000000004 1.2345678901234567890 170141183460469231731687303715884105727 170141183460469231731687303715884105728
340282366920938463463374607431768211455 340282366920938463463374607431768211456 -170141183460469231731687303715884105729
1e400 -1e-400 1,5 0x1_0,8p+1h 0x1_000h 0x1_00h 0x1 1h -0x1h NaN +nan -inf INFINITY Infinity .nan .NaN -.INF 010 08 0.1 1.1 -5
2147483647 2147483648 -2147483648 4611686018427387904 9223372036854775808 18446744073709551615 18446744073709551616 0xffffffff 0x100000000
0x4000000000000000 0x8000000000000000 0xffffffffffffffff 0x10000000000000001 0ffffffffffffffffh 0b11111111111111111111111111111111""".split()
# Links with all parts of a number, several forms, reasons, notes, offers, and a condition that does not fit.
LINKS = [f"#forms={MIXED_FORM}&numbers=-0x1_0%2C8p%2B1h%0A!0x1h%0A1m&compare=JSON",
         f"#language=C&numbers={60 * '1'}%0A0xg%0A0b1.5{6 * ('%0A1.' + 50 * '0')}&compare=standard",
         f"#forms={UNLAWFUL} exponent=112&compare=standard",
         f"#forms={STANDARD} integer_group_size=3&numbers=-inf%0A1_0%0A0x1F&compare=standard"]
# The functions of the scripts here, which run in the page and are members of `tests` there.
FUNCTIONS = "".join(it.read_text() for it in sorted(HERE.glob("*.js")))
NAMES = re.findall(r"^(?:async )?function (\w+)", FUNCTIONS, re.M)
SCRIPT = f"window.tests = (() => {{ {FUNCTIONS} return {{ {', '.join(NAMES)} }}; }})();"


def has(*programs):
    """Returns whether the machine has all of these programs."""
    return all(map(shutil.which, programs))


def run(*command, **options):
    """Returns what a command prints. It fails the test if the command fails."""
    done = subprocess.run([*map(str, command)], capture_output=True, text=True, **options)
    if done.returncode:
        raise AssertionError(f"{command}\n{done.stdout}{done.stderr}")
    return done.stdout


@unittest.skipUnless(webdriver and has("chromium", "chromedriver"), "no chromium, chromium-driver or python3-selenium")
class Walk(unittest.TestCase):
    """A walk through the page in the browser of all tests. Each test loads the page anew."""

    driver = None

    def __init_subclass__(cls):
        """Makes a test of each function of the script of a class that is one: it returns nothing that is wrong."""
        script = HERE / f"{cls.__module__}.js"
        states = [(word, ord(exponent), ord(point)) for word, exponent, point in STATES]
        for name in re.findall(r"^function (test_\w+)", script.read_text() if script.exists() else "", re.M):
            setattr(cls, name, lambda self, name=name: self.assertEqual(self.call(name, TEXTS, states), []))

    @classmethod
    def setUpClass(cls):
        Walk.driver = Walk.driver or cls.browser()

    @staticmethod
    def browser():
        options = Options()
        for option in ("--headless=new", "--no-sandbox", "--disable-gpu", "--hide-scrollbars", "--disable-dev-shm-usage", "--disable-ipc-flooding-protection"):
            options.add_argument(option)
        options.set_capability("goog:loggingPrefs", {"browser": "ALL"})
        driver = webdriver.Chrome(service=Service("chromedriver"), options=options)
        atexit.register(driver.quit)
        driver.set_script_timeout(600)
        driver.execute_cdp_cmd("Page.addScriptToEvaluateOnNewDocument", {"source": SCRIPT})
        return driver

    def setUp(self):
        self.driver.set_window_size(1280, 1500)
        self.load()

    def tearDown(self):
        self.assertEqual(self.driver.get_log("browser"), [])

    def load(self, fragment=""):
        """Loads the page from the disk, as from a link."""
        self.driver.get("about:blank")
        self.driver.get(PAGE.as_uri() + fragment)
        self.wait_until_ready()

    def links(self):
        """Follows each of LINKS, shows each tab, opens all that is closed, and returns the link."""
        for link in LINKS:
            self.call("follow", link)
            self.assertEqual(self.text("#told"), "")
            for tab in ("languages", "rust", "compare", "edit", "grammar"):
                self.run_script("page.chooseTab(arguments[0]); document.querySelectorAll('details').forEach((it) => { it.open = true; })", tab)
                yield f"{link}&tab={tab}"

    def wait_until_ready(self):
        self.wait(lambda: self.run_script("return document.documentElement.dataset.ready"))

    def wait(self, condition):
        WebDriverWait(self.driver, 60, 0.02).until(lambda _: condition())

    def run_script(self, script, *arguments):
        return self.driver.execute_script(script, *arguments)

    def call(self, name, *arguments):
        """Returns what a function of a script here returns."""
        return self.run_script(f"return tests.{name}(...arguments);", *arguments)

    def find(self, selector):
        return self.driver.find_element(By.CSS_SELECTOR, selector)

    def open(self, selector):
        """Shows the tab in which an element is."""
        self.run_script("""const [selector] = arguments;
            const outer = /^[.]reason/.test(selector) ? "#report" : selector.split(/[ >]/)[0];
            const pane = (document.querySelector(selector) ?? document.querySelector(outer))?.closest("[id^=pane-]");
            if (pane?.hidden) page.open(pane.id.slice(5));""", selector)

    def text(self, selector):
        self.open(selector)
        return self.find(selector).text

    def texts(self, selector):
        self.open(selector)
        return [it.text for it in self.driver.find_elements(By.CSS_SELECTOR, selector)]

    def value(self, selector="#word"):
        self.open(selector)
        return self.find(selector).get_property("value")

    def focused(self):
        return self.run_script("return document.activeElement.id")

    def type(self, selector, text):
        """Replaces the text of an input."""
        self.open(selector)
        self.find(selector).send_keys(Keys.CONTROL, "a")
        self.find(selector).send_keys(text or Keys.DELETE)

    def select(self, selector, value):
        self.open(selector)
        Select(self.find(selector)).select_by_value(value)

    def click(self, selector, text=None):
        """Clicks the element, or the first of these with the text."""
        self.open(selector)
        found = self.driver.find_elements(By.CSS_SELECTOR, selector)
        chosen = next(it for it in found if text is None or it.text == text)
        self.run_script("arguments[0].scrollIntoView({block: 'center'})", chosen)
        chosen.click()

    def screens(self, *sizes):
        """Shows the page on each of these screens, by default those of a laptop and a phone, and returns its width."""
        self.addCleanup(self.driver.execute_cdp_cmd, "Emulation.clearDeviceMetricsOverride", {})
        for width, height in sizes or ((1280, 720), (360, 700)):
            metrics = {"width": width, "height": height, "deviceScaleFactor": 1, "mobile": width < 500}
            self.driver.execute_cdp_cmd("Emulation.setDeviceMetricsOverride", metrics)
            yield width

    def media(self, media="", **features):
        """Shows the page from now on in a medium with these features."""
        features = [{"name": name.replace("_", "-"), "value": value} for name, value in features.items()]
        self.driver.execute_cdp_cmd("Emulation.setEmulatedMedia", {"media": media, "features": features})
        self.addCleanup(self.driver.execute_cdp_cmd, "Emulation.setEmulatedMedia", {"media": "", "features": []})
