from .support import AT, PROPERTIES, WITH_ITEM, ImportCase, compare, condition

PAGE = """<?xml version="1.0"?>
<!DOCTYPE html PUBLIC "-//W3C//DTD XHTML 1.0 Strict//EN" "http://www.w3.org/TR/xhtml1/DTD/xhtml1-strict.dtd">
<html xmlns="http://www.w3.org/1999/xhtml" xmlns:l="http://www.imsglobal.org/xsd/imsld_v1p0"><body>&nbsp;
<l:view-property ref="n"/><l:set-property ref="own" property-of="self" view="value"/><l:set-property-group ref="g"/>
</body></html>"""
GROUP = PROPERTIES.replace(
    "</properties>",
    '<property-group identifier="g"><title>G</title><property-ref ref="word"/><property-ref ref="yes"/>'
    "</property-group></properties>",
)
ENVIRONMENTS = (
    '<environments><environment identifier="e"><learning-object identifier="o"><item identifier="i" identifierref="r"/>'
    '</learning-object></environment><environment identifier="f"><environment-ref ref="e"/></environment>'
    '<environment identifier="h"><environment-ref ref="f"/></environment></environments>'
)
TWO = (
    '<learning-activity identifier="read"><environment-ref ref="h"/></learning-activity>'
    '<learning-activity identifier="see"><environment-ref ref="e"/></learning-activity>'
)
LOST = [
    (PAGE.replace('property-of="self"', 'property-of="supported-person"'), "property-of"),
    (PAGE.replace('ref="own"', 'ref="none"'), "reference"),
    (PAGE.replace("</body>", ""), "page"),
]


class Pages(ImportCase):
    def bring_page(self, page=PAGE, pages=True, **parts):
        parts = {"properties": GROUP, "activities": WITH_ITEM, **parts}
        return self.bring(pages=pages, files={"a.html": page}, **parts)

    def test_a_page(self):
        done = self.bring_page()
        self.assertEqual(done.losses(), [])
        fields = [{"view": "n"}, {"set": "own"}, {"set": "g"}]
        wanted = {
            "groups": [{"identifier": "g", "title": "G", "members": ["word", "yes"]}],
            "pages": [{"identifier": "i.page", "activity": "read", "fields": fields}],
        }
        self.assertEqual(done.document("pages"), wanted)
        self.assertEqual(done.document("import")["pages"], {"i.page": {"item": "i", "file": "a.html"}})

    def test_a_page_is_shown(self):
        self.needs_pages()
        lines = [[AT, "create", "r", "u"], [AT, "enrol", "r", "ann"], [AT, "assign", "r", "ann", "learner"]]
        lines += [[AT, "start", "r"], [AT, "page", "r", "ann", "i.page"]]
        self.assertIn("  set yes none", self.replay(self.bring_page().folder, *lines))

    def test_pages_of_environments(self):
        pages = self.bring_page(activities=TWO, environments=ENVIRONMENTS).document("pages")["pages"]
        found = [(page["identifier"], page["activity"]) for page in pages]
        self.assertEqual(found, [("i.page.read", "read"), ("i.page.see", "see")])

    def test_a_page_that_no_activity_shows_is_lost(self):
        activities = '<learning-activity identifier="read"/>'
        done = self.bring_page(activities=activities, environments=ENVIRONMENTS)
        self.assertEqual(done.losses(), [("lost", "page")])

    def test_losses(self):
        for page, code in LOST:
            self.assertEqual(self.bring_page(page).losses(), [("lost", code)])

    def test_without_the_option(self):
        self.assertEqual(self.bring_page(pages=False).losses(), [("lost", "page")])

    def test_a_class_in_a_page_is_lost(self):
        page = '<html xmlns="http://www.w3.org/1999/xhtml"><body class="deep">x</body></html>'
        shown = '<show><class class="deep"/></show>'
        done = self.bring_page(page, False, after=condition(compare("is", "@n", "1"), shown))
        self.assertIn(("a.html", "class"), [(entry.file, entry.code) for entry in done.entries])
