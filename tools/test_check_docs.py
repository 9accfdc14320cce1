"""Tests of the link check, on small repositories in a temporary folder."""

import pathlib
import tempfile
import unittest

import check_docs


class CheckDocs(unittest.TestCase):
    def setUp(self):
        folder = tempfile.TemporaryDirectory()
        self.addCleanup(folder.cleanup)
        self.root = pathlib.Path(folder.name) / "repository"
        self.root.mkdir()

    def write(self, name, text):
        path = self.root / name
        path.parent.mkdir(parents=True, exist_ok=True)
        path.write_text(text, "utf-8")

    def faults(self, readme):
        self.write("README.md", readme)
        return check_docs.check(self.root)

    def test_good_links(self):
        self.write("docs/USE.md", "# Use\n\n## The `open` call, and more\n\n[up](../README.md) [here](#use)\n")
        self.write("docs/a b.txt", "")
        self.write("src/x(1).txt", "")
        self.assertEqual(
            self.faults(
                "# Top\n\n[a](docs/USE.md) [`docs`](docs) [b](docs/USE.md#the-open-call-and-more) [c](#top)\n"
                "![d](docs/a%20b.txt \"title\") [e](<docs/a b.txt>) [f](src/x(1).txt) [g][use]\n\n[use]: docs/USE.md\n"
            ),
            [],
        )

    def test_missing_file(self):
        self.assertEqual(
            self.faults("first\n\n[a](docs/GONE.md) and [`b`](gone/b.txt)\n"),
            [
                "README.md:3: the link 'docs/GONE.md' does not exist",
                "README.md:3: the link 'gone/b.txt' does not exist",
            ],
        )

    def test_missing_definition(self):
        self.assertEqual(self.faults("[a][b]\n\n[b]: gone.md\n"), ["README.md:3: the link 'gone.md' does not exist"])

    def test_missing_heading(self):
        self.write("docs/USE.md", "# Use\n\n```\n# not a heading\n```\n")
        self.assertEqual(
            self.faults("# Top\n[a](docs/USE.md#using) [b](#bottom) [c](docs/USE.md#not-a-heading)\n"),
            [
                "README.md:2: the link 'docs/USE.md#using' has no such heading",
                "README.md:2: the link '#bottom' has no such heading",
                "README.md:2: the link 'docs/USE.md#not-a-heading' has no such heading",
            ],
        )

    def test_repeated_headings(self):
        self.assertEqual(self.faults("# A\n# A\n[a](#a) [b](#a-1)\n"), [])
        self.assertEqual(self.faults("# A\n# A\n[a](#a-2)\n"), ["README.md:3: the link '#a-2' has no such heading"])

    def test_relative_to_the_page(self):
        self.write("docs/USE.md", "[a](README.md)\n")
        self.assertEqual(self.faults(""), ["docs/USE.md:1: the link 'README.md' does not exist"])

    def test_every_page_is_looked_at(self):
        self.write("docs/A.md", "[a](1)\n")
        self.write("docs/B.md", "[a](2)\n")
        self.write("bench/README.md", "[a](3)\n")
        self.write("src/other.md", "[a](4)\n")
        self.assertEqual(
            self.faults("[a](0)\n"),
            [
                "README.md:1: the link '0' does not exist",
                "docs/A.md:1: the link '1' does not exist",
                "docs/B.md:1: the link '2' does not exist",
                "bench/README.md:1: the link '3' does not exist",
            ],
        )

    def test_outside(self):
        (self.root.parent / "other.md").write_text("", "utf-8")
        self.assertEqual(
            self.faults("[a](../other.md) [b](/etc)\n"),
            [
                "README.md:1: the link '../other.md' points outside the repository",
                "README.md:1: the link '/etc' is not relative",
            ],
        )

    def test_empty_link(self):
        self.assertEqual(self.faults("[a]()\n"), ["README.md:1: the link '' is empty"])

    def test_code_and_other_sites_are_passed_over(self):
        self.assertEqual(
            self.faults(
                "`[a](gone)` ``[`a`](gone)``\n\n```sh\n[a](gone)\n```\n\n~~~\n```\n[a](gone)\n~~~\n"
                "[b](https://example.org/gone) [c](mailto:a@example.org) <https://example.org>\n"
            ),
            [],
        )

    def test_after_a_fence(self):
        self.assertEqual(self.faults("```\n```\n[a](gone)\n"), ["README.md:3: the link 'gone' does not exist"])

    def test_no_readme(self):
        self.assertEqual(check_docs.check(self.root), ["README.md: is missing"])


if __name__ == "__main__":
    unittest.main()
