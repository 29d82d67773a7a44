"""What is found in texts. What is expected is worked out by hand, by docs/LINT.md."""
import unittest

from zaxmonth import Finding, Utf8Error, findings

from . import DATA, OWN


class Findings(unittest.TestCase):
    def test_an_attribute_that_is_not_known(self):
        found = [it for it in findings(OWN + "a=what-is-this\r\n") if it.code == "unknown-attribute"]
        self.assertEqual([(it.line, it.column) for it in found], [(OWN.count("\n") + 1, 3)])

    def test_a_text_that_is_refused(self):
        found = findings(b"x")
        self.assertEqual([(it.line, it.column, it.severity, it.code) for it in found], [(1, 1, "error", "version-line")])
        self.assertEqual(str(found[0]), f"1:1: error: {found[0].message} [version-line]")

    def test_more_than_fits_at_once(self):
        lines = 500
        found = findings(OWN + "a=what-is-this\r\n" * lines)
        self.assertEqual(len([it for it in found if it.code == "unknown-attribute"]), lines)

    def test_they_are_values(self):
        path = DATA / "chromium-munged-truncated-offer.sdp"
        self.assertEqual(findings(path.read_bytes()), findings(path.read_bytes().decode()))
        self.assertEqual(Finding(1, 2, "note", "c", "m"), Finding(1, 2, "note", "c", "m"))

    def test_bytes_that_are_no_utf8(self):
        for text in (b"\xff", "\ud800"):
            self.assertRaises(Utf8Error, findings, text)
        self.assertRaises(TypeError, findings, None)
