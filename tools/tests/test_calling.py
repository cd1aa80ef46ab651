"""docs/explanation/calling.md shows the code of crates/mq_example and a line of crates.txt as they
stand."""
import re
import unittest

from worked import TOP


class Calling(unittest.TestCase):
    def test_blocks(self):
        text = (TOP / "docs/explanation/calling.md").read_text("utf-8")
        code = "".join(file.read_text("utf-8")
                       for file in sorted((TOP / "crates/mq_example/src").glob("*.rt")))
        blocks = re.findall(r"```rust\n(.*?)```", text, re.S)
        self.assertGreater(len(blocks), 1)
        for block in blocks:
            self.assertIn(block, code)
        for line in re.findall(r"```\n(mq_.*)\n```", text):
            self.assertIn(line, (TOP / "crates.txt").read_text("utf-8").splitlines())


if __name__ == "__main__":
    unittest.main()
