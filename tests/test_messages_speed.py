"""The time that messages take for very many fault lines."""
from __future__ import annotations

import resource

from tests.message_links import SCRIPT, MessageTest, compiled

OBJECTS = 400
CALLS = 250


def used() -> float:
    """The processor seconds of the programs that have ended, which other work on the machine changes little."""
    found = resource.getrusage(resource.RUSAGE_CHILDREN)
    return found.ru_utime + found.ru_stime


class SpeedTest(MessageTest):
    """100,000 fault lines."""

    def test_undefined(self) -> None:
        """F12 in objects with debug information, with lines that each are looked up."""
        calls = "\n".join(f"  y += f{k}(y);" for k in range(CALLS))
        source = "".join(f"int f{k}(int);\n" for k in range(CALLS))
        source += f"static int g(int y)\n{{\n{calls}\n  return y;\n}}"
        data = compiled(source + "\nint (*const v)(int) = g;".replace("const v", "const __attribute__((weak)) v"), "-g")
        objects = {f"o{k}.o": data for k in range(OBJECTS)}
        before = used()
        messages = self.messages(SCRIPT.replace("*(.text)", "*(.text .rodata)"), objects)
        seconds = used() - before
        undefined = [message for message in messages if message.line.startswith("F12 ")]
        self.assertEqual(len(undefined), OBJECTS * CALLS)
        self.assertTrue(all(message.sentence.startswith("/project/text.c:") for message in undefined))
        self.assertLess(seconds, 60)
