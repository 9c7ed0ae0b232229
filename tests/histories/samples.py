"""Random texts that are values of the datatypes, the same values in other writing, and texts that are no values."""
from names import TITLE, happens
from values import DAY, FIRST_MOMENT, LAST_MOMENT, text_of_moment, value_of

LONG = "n" * 4_096
INTEGERS = ["0", "1", "1", "2", "2", "3", "4", "5", "7", "7", "10", "-1", "-1", "-2", "-3", "-7", "-7", "-10"]
FAR_INTEGERS = [str(2**63 - 1), str(-2**63), str(2**63 - 2), str(-2**63 + 1), str(2**62), "3037000500", "-4294967296"]
WORDS = ["", "a", "a", "b", "yes", "no", "é", "漢字", "e\u0301", "😀", "A"]
URIS = ["a", "b", "yes", "urn:a", "urn:b", "!", "~" * 20, "http://a.example/?q=%20"]
SPANS = ["PT0S", "PT1S", "PT2S", "PT1M", "PT1H", "PT1H0M1S", "P1D", "P1DT1S", "P31D", "PT86399S"]
FAR_SPANS = ["PT999999999999S", "P11574074DT1H46M39S", "P11574074D", "P3652058DT23H59M59S"]
OFFSETS = [0, 0, 1, 60, 3_600, DAY, DAY + 60, 31 * DAY, -1, -60, -DAY]
# Texts that are no values, of any datatype but string and text.
NO_VALUES = ["x y", "1.5", "+1", "1e3", " 1", "0x1", "- 1", "--1", "9223372036854775808", "-9223372036854775809",
             "0" * 20, "True", "TRUE", "yes ", "t rue", "2023-02-29T00:00:00Z", "2024-01-01T24:00:00Z", "2024-01-01",
             "0000-12-31T23:59:59Z", "P", "PT", "P1", "P1DT", "P1M", "P1Y", "PT1D", "PT1.5S", "-PT1S", "pt1s",
             "PT1000000000000S", "P11574074DT1H46M40S", "P0000000000001D", "PT1S1M", "\n", "a b", "é", "", "１"]


def moment(draw, era):
    """A moment not far from when the histories of the units play, seldom one of the first and last."""
    if happens(draw, 0.05):
        return text_of_moment(draw.choice([FIRST_MOMENT, FIRST_MOMENT + 1, LAST_MOMENT - 1, LAST_MOMENT]))
    return text_of_moment(min(max(era + draw.choice(OFFSETS), FIRST_MOMENT), LAST_MOMENT))


def words(draw):
    """A text, mostly one of a few, seldom of the greatest length."""
    if happens(draw, 0.03):
        return draw.choice([LONG, "é" * 2_048])
    return draw.choice(WORDS) if happens(draw, 0.85) else "".join(draw.choices(TITLE, k=draw.randrange(1, 9)))


def sample(draw, datatype, era):
    """A text that is a value of the datatype."""
    if datatype == "boolean":
        return draw.choice(["true", "false"])
    if datatype == "integer":
        return respelled(draw, "integer", draw.choice(INTEGERS if happens(draw, 0.9) else FAR_INTEGERS), 0.1)
    if datatype == "datetime":
        return moment(draw, era)
    if datatype == "duration":
        return respelled(draw, "duration", draw.choice(SPANS if happens(draw, 0.92) else FAR_SPANS), 0.2)
    if datatype == "uri":
        return draw.choice(URIS) if happens(draw, 0.97) else "u" * 4_096
    return words(draw)


def respelled(draw, datatype, text, chance=0.5):
    """A text with the same value, often another one."""
    if not happens(draw, chance):
        return text
    value = value_of(datatype, text)
    if datatype == "integer":
        digits = str(abs(value)).zfill(draw.randint(1, 19))
        return ("-" if value < 0 or value == 0 and happens(draw, 0.5) else "") + digits
    if datatype == "duration":
        days, rest = divmod(value, DAY)
        return draw.choice([f"PT{value}S", f"P{days}DT{rest}S", f"P{days:06}DT{rest // 60}M{rest % 60}S",
                            f"PT{value // 3_600}H{value % 3_600}S"])
    return text


def no_value(draw, datatype):
    """A text that most likely is no value of the datatype."""
    if datatype in ("string", "text"):
        return draw.choice([LONG + "n", "é" * 2_048 + "n"])
    return LONG + "n" if happens(draw, 0.03) else draw.choice(NO_VALUES)
