"""The examples of docs/PYTHON.md."""
import contextlib
import io
import pathlib
import re
import unittest

from muigratu import errors

from . import needs_program

PAGE = pathlib.Path(__file__).resolve().parent.parent.parent / "docs" / "PYTHON.md"


@needs_program
class Page(unittest.TestCase):
    def test_examples_run_and_print_what_the_page_says(self):
        blocks = re.findall(r"```(python|text)\n(.*?)```", PAGE.read_text(encoding="utf-8"), re.DOTALL)
        self.assertGreater(len(blocks), 3)
        names, printed = {}, ""
        for language, text in blocks:
            with self.subTest(text=text):
                if language == "text":
                    self.assertEqual(printed, text)
                    continue
                out = io.StringIO()
                with contextlib.redirect_stdout(out), contextlib.suppress(errors.Usage):
                    exec(text, names)
                printed = out.getvalue()
                for expression, value in re.findall(r"^(\S+)  # (.*)$", text, re.MULTILINE):
                    self.assertEqual(repr(eval(expression, names)), value)
