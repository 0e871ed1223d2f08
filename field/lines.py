"""One string for each thing that a terminal does and that a string can show. `field/models --lines` shows each on all
terminals.

What is said of a terminal holds of its string there. The other terminals have the string only to compare them.
"""
from dataclasses import dataclass

RED, GREEN, BLUE = "#1;2;100;0;0", "#2;2;0;100;0", "#3;2;0;0;100"


@dataclass
class Line:
    terminal: str
    what: str                   # what it does
    text: str                   # between ESC P and ESC \
    after: str = ""

    @property
    def data(self):
        return f"\x1bP{self.text}\x1b\\{self.after}".encode()


def bands(count, band):
    return "-".join([band] * count)


LINES = [
    Line("xterm", "draws nothing if the introducer's first number is above 9", f'10;1q"1;1;6;6{RED}#1!6~'),
    Line("xterm", "takes that number by its value", f'09;1q"1;1;6;6{RED}#1!6~'),
    Line("xterm", "takes that number by its value, with zeros before it too", f'010;1q"1;1;6;6{RED}#1!6~'),
    Line("xterm", "ends the string at a select without a number", '0;1q"1;1;2;6#0;2;100;0;0#1;2;0;0;100#~~'),
    Line("xterm", "doesn't end it at a definition without a register", f"0;1q#;2;0;100;0{RED}#1~#0~"),
    Line("xterm", "takes a number of the ratio up to 32,767 as any other", f'0q"1001;32767;12;12{RED}#1~'),
    Line("xterm", "draws nothing if the last ratio has a number above 32,767", f'0q{RED}#1~"1;32768;12;12#1~'),
    Line("xterm", "draws all of it if another ratio follows", f'0q{RED}#1~"1;32768;12;12#1~"1;1#1~'),
    Line("xterm", "sets the column to 0 at a repeat that paints past column 999", f"0;1q{RED}{GREEN}#1!1023@#2!50A"),
    Line("xterm", "doesn't do so at a repeat that ends there", f"0;1q{RED}{GREEN}#1!1000@#2!5?!5A"),
    Line("xterm", "doesn't do so at blanks", f"0;1q{RED}{GREEN}#1~!1001?#2!5A"),
    Line("xterm", "ends the string at a single sixel past column 999", f"0;1q{RED}#1!1001?~-!8~"),
    Line("xterm", "paints the first column of a sixel that reaches past row 999, and ends the string there",
         f'0;1q"1;1;2;1000{RED}#1' + bands(166, "~~") + "-NN#1;2;0;100;0"),
    Line("xterm", "paints the first column of a repeat that reaches past row 999, and sets the column to 0",
         f'0;1q"1;1;9;1000{RED}{GREEN}#1' + bands(166, "!9~") + "-!9N!5?#2!4N"),
    Line("xterm", "paints all that ends at row 995", f'0;1q"1;1;2;996{RED}#1' + bands(166, "~~")),
    Line("xterm", "passes over raster attributes of two numbers", f'0q"1;1{RED}#1!6~'),
    Line("xterm", "passes over raster attributes of three numbers", f'0q"1;1;12{RED}#1!6~'),
    Line("xterm", "counts no empty number at their end", f'0q"1;1;12;{RED}#1!6~'),
    Line("xterm", "ends the string at raster attributes of one number", f'0;1q{RED}#1!6~"1!6~'),
    Line("xterm", "ends the string at raster attributes without a number", f'0;1q{RED}#1!6~"!6~'),
    Line("xterm", "ends the string at a height that is written as 0", f'0;1q{RED}#1!6~"1;1;12;0!6~'),
    Line("xterm", "ends the string at a repeat without a number", f"0;1q{RED}#1!6~!~!6~"),
    Line("xterm", "takes a repeat of 0 as none", f"0;1q{RED}#1!6~!0~!6~"),
    Line("xterm", "clears a cell of the picture at a blank behind it", '0;1q"1;1;12;12#0;2;100;0;0#0!12~-!12~', " "),
    Line("xterm", "does so at a return and a blank", '0;1q"1;1;12;12#0;2;100;0;0#0!12~-!12~', "\r "),
    Line("xterm", "doesn't at a line feed", '0;1q"1;1;12;12#0;2;100;0;0#0!12~-!12~', "\n"),
    Line("xterm", "doesn't at a return and a line feed", '0;1q"1;1;12;12#0;2;100;0;0#0!12~-!12~', "\r\n"),
    Line("xterm", "doesn't at a tab", '0;1q"1;1;12;12#0;2;100;0;0#0!12~-!12~', "\t"),
    Line("mlterm", "swallows the byte behind a select without a number", '0;1q"1;1;2;6#0;2;100;0;0#1;2;0;0;100#~~'),
    Line("mlterm", "swallows the byte behind a repeat without a number", f"0;1q{RED}{GREEN}#1!~#2~~"),
    Line("mlterm", "swallows the byte behind raster attributes without a number", f'0;1q{RED}{GREEN}#1~"#2~~'),
    Line("mlterm", "swallows the first byte of the terminator, and paints the second", '0;1q"1;1;6;12#0!6~-!6~#'),
    Line("mlterm", "takes a repeat of 0 as one", f"0;1q{RED}{GREEN}#1!0~#2~~"),
    Line("mlterm", "takes colour system 9 as percentages", '0;1q"1;1;12;6#5;9;24;0;20#5!6~'),
    Line("mlterm", "takes colour system 3 as samples", '0;1q"1;1;12;6#5;3;24;0;20#5!6~'),
    *[Line("mlterm", f"mixes after {start}", f'{start}q"1;1;3;6{RED}{GREEN}{BLUE}#1!3~$#2!3~')
      for start in ["05", "051;1", "059", "0500", "15", "0;5", ";5", "5;5"]],
    *[Line("mlterm", f"doesn't mix after {start}", f'{start}q"1;1;3;6{RED}{GREEN}{BLUE}#1!3~$#2!3~')
      for start in ["5", "005", "0050", "50;1", "0;05", "10;5", ";;5"]],
    Line("mlterm", "shows a mixed pixel in its register's colour at the end",
         f'0;5q"1;1;6;6{RED}{GREEN}{BLUE}#1!6~$#2!3~#3;2;100;100;0'),
    Line("foot", "passes over raster attributes with a side above 10,000", f'0;1q"1;1;10001;3{RED}#1!6~'),
    Line("foot", "takes a side of 10,000", f'0;1q"1;1;10000;3{RED}#1!6~'),
    Line("konsole", "takes two numbers as a box of 8 by 6 with this ratio", f'0;1q"2;1{RED}#1!3~'),
    Line("konsole", "passes over two numbers behind a definition", f'0;1q{RED}"2;1#1!3~'),
    Line("konsole", "takes a width of 0 as no raster attributes", f'0;1q"2;1;0;12{RED}#1!3~'),
    Line("konsole", "takes a height of 0 as no raster attributes", f'0;1q"2;1;12;0{RED}#1!3~'),
    Line("konsole", "takes an empty height as no raster attributes", f'0;1q"2;1;12;{RED}#1!3~'),
    Line("konsole", "draws nothing behind one number and a definition", f'0;1q"1{RED}#1!3~'),
    Line("konsole", "draws nothing behind three numbers and a definition", f'0;1q"1;1;12{RED}#1!3~'),
    Line("konsole", "takes the number of the next command as the fourth", '0;1q"1;1;12#15!6~'),
    Line("konsole", "takes a sixel for an empty fourth number", '0;1q"1;1;12~#1~'),
    Line("konsole", "takes the number of the next command as the second", '0;1q"2!1~~#1~'),
    Line("konsole", "draws again behind the next move", f'0;1q"1{RED}#1!3~$#2!3~'),
    Line("konsole", "wraps a percentage above 100", '0;1q"1;1;12;6#5;2;150;300;40000#5!6~'),
    Line("konsole", "takes a number above 40,960 for this one", '0;1q"1;1;12;6#5;2;65535;50;40961#5!6~'),
    Line("konsole", "stretches by a ratio that isn't whole", f'0;1q"3;2;8;6{RED}{GREEN}#1!8T$#2!8i'),
    Line("konsole", "shrinks by a ratio below 1", f'0;1q"2;3;8;6{RED}{GREEN}#1!8T$#2!8i'),
]
