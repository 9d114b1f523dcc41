"""Files that are refused: of each a name, its number, its text, and the line on the entry at fault."""

VENUE = 'venue = "SEF"\n'
ONE = '[[participant]]\nname = "{}"\n'
PAIR = '[[related]]\na = "{}"\nb = "{}"\n'
TWO = VENUE + ONE.format("ALPHA") + ONE.format("BETA")
THREE = TWO + ONE.format("GAMMA")
ROW = '[[instrument]]\nsymbol = "{}"\ntick = 1\nleast = 1\nrfq_life = 1\n'
NO_NAME = "is not 1 to 64 printable ASCII characters without space or comma"
TICK = "is not a whole number from 1 to 1,000,000,000,000"
LEAST = "is not a whole number from 1 to 1,000,000,000,000,000"
LIFE = "is not a whole number from 1 to 86,400"
DELAY = "is not a whole number from 1,000 to 3,600,000"


def row(**values):
    """An instrument with these values in TOML, and else those of ROW; without a key whose value is None."""
    words = {"symbol": '"IRS5Y"', "tick": "1", "least": "1", "rfq_life": "1"} | values
    return "[[instrument]]\n" + "".join(f"{key} = {value}\n" for key, value in words.items() if value is not None)


PARTICIPANTS = [
    ("no_value", 1, "venue = ", "line 1: invalid value, expected a string, number, boolean, date-time, array or inline table"),
    ("a_word_alone", 1, VENUE + "\n# a remark\nparticipant\n", "line 4: key with no value, expected `=`"),
    ("open_table", 1, VENUE + "[[participant]\n", "line 2: unclosed array table, expected `]]`"),
    ("a_key_twice", 1, VENUE + VENUE, "line 2: duplicate key"),
    ("no_text", 2, "", "venue is missing"),
    ("no_participant", 2, VENUE, "participant is missing"),
    ("empty_list", 2, VENUE + "participant = []\n", "participant has no entry"),
    ("no_name", 2, TWO + "[[participant]]\n", "participant 3: name is missing"),
    ("empty_related", 2, "related = []\n" + TWO, "related has no entry"),
    ("no_a", 2, TWO + '[[related]]\nb = "BETA"\n', "related 1: a is missing"),
    ("no_b", 2, TWO + PAIR.format("ALPHA", "BETA") + '[[related]]\na = "BETA"\n', "related 2: b is missing"),
    ("a_before_b", 2, TWO + '[[related]]\na = "BETA"\n[[related]]\nb = "BETA"\n', "related 2: a is missing"),
    ("key_before_value", 2, "venue = 7\n[[participant]]\n", "participant 1: name is missing"),
    ("venue_a_number", 6, "venue = 7\n" + ONE.format("ALPHA"), f"venue {NO_NAME}"),
    ("venue_with_a_space", 6, 'venue = "S EF"\n' + ONE.format("ALPHA"), f'venue = "S EF" {NO_NAME}'),
    ("participant_a_table", 6, VENUE + '[participant]\nname = "ALPHA"\n', "participant is no list; each entry begins with [[participant]]"),
    ("participant_a_text", 6, VENUE + 'participant = ["ALPHA"]\n', "participant 1: not a table"),
    ("name_a_number", 6, TWO + "[[participant]]\nname = 7\n", f"participant 3: name {NO_NAME}"),
    ("name_with_a_comma", 6, VENUE + ONE.format("ALPHA,BETA"), f'participant 1: name = "ALPHA,BETA" {NO_NAME}'),
    ("name_empty", 6, TWO + ONE.format(""), f"participant 3: name {NO_NAME}"),
    ("name_too_long", 6, TWO + ONE.format(65 * "N"), f"participant 3: name {NO_NAME}"),
    ("name_with_a_tab", 6, TWO + ONE.format("A\\tB"), f"participant 3: name {NO_NAME}"),
    ("name_with_an_umlaut", 6, TWO + ONE.format("ZÜRICH"), f'participant 3: name = "ZÜRICH" {NO_NAME}'),
    ("related_a_table", 6, TWO + '[related]\na = "ALPHA"\nb = "BETA"\n', "related is no list; each entry begins with [[related]]"),
    ("related_a_number", 6, "related = [7]\n" + TWO, "related 1: not a table"),
    ("a_with_a_space", 6, TWO + PAIR.format("ALP HA", "BETA"), f'related 1: a = "ALP HA" {NO_NAME}'),
    ("b_with_a_space", 6, TWO + PAIR.format("ALPHA", "BE TA"), f'related 1: b = "BE TA" {NO_NAME}'),
    ("one_participant_twice", 6, TWO + PAIR.format("ALPHA", "BETA") + PAIR.format("BETA", "BETA"), "related 2: a and b are both BETA"),
    ("value_before_count", 6, VENUE + "".join(ONE.format(k) for k in range(32)) + ONE.format("A B"), f'participant 33: name = "A B" {NO_NAME}'),
    ("too_many", 5, VENUE + "".join(ONE.format(f"P{k}") for k in range(33)), "participant has 33 entries, at most 32 are allowed"),
    ("count_before_repeat", 5, VENUE + 33 * ONE.format("ALPHA"), "participant has 33 entries, at most 32 are allowed"),
    ("name_of_the_venue", 3, TWO + ONE.format("SEF"), "participant 3: name = SEF is the venue's"),
    ("name_twice", 3, THREE + ONE.format("BETA"), "participant 4: name = BETA: an earlier entry has it"),
    ("pair_twice", 3, THREE + PAIR.format("ALPHA", "BETA") + PAIR.format("BETA", "GAMMA") + PAIR.format("ALPHA", "BETA"), "related 3: ALPHA and BETA: an earlier entry has this pair"),
    ("pair_turned", 3, TWO + PAIR.format("ALPHA", "BETA") + PAIR.format("BETA", "ALPHA"), "related 2: BETA and ALPHA: an earlier entry has this pair"),
    ("repeat_before_unknown", 3, TWO + PAIR.format("ALPHA", "ZETA") + PAIR.format("ALPHA", "ZETA"), "related 2: ALPHA and ZETA: an earlier entry has this pair"),
    ("unknown_a", 4, TWO + PAIR.format("ALPHA", "BETA") + PAIR.format("ZETA", "BETA"), "related 2: a = ZETA is no participant"),
    ("unknown_b", 4, TWO + PAIR.format("ALPHA", "ZETA"), "related 1: b = ZETA is no participant"),
    ("unknown_venue", 4, TWO + PAIR.format("ALPHA", "SEF"), "related 1: b = SEF is no participant"),
]

INSTRUMENTS = [
    ("no_value", 1, "instrument = ", "line 1: invalid value, expected a string, number, boolean, date-time, array or inline table"),
    ("no_quotes", 1, ROW.format("A") + "[[instrument]]\nsymbol = B\n", "line 7: invalid value, expected a string, number, boolean, date-time, array or inline table"),
    ("no_text", 2, "", "instrument is missing"),
    ("empty_list", 2, "instrument = []\n", "instrument has no entry"),
    ("no_symbol", 2, row() + row(symbol=None), "instrument 2: symbol is missing"),
    ("no_tick", 2, row(tick=None), "instrument 1: tick is missing"),
    ("no_least", 2, row(least=None), "instrument 1: least is missing"),
    ("no_life", 2, row(rfq_life=None), "instrument 1: rfq_life is missing"),
    ("symbol_before_tick", 2, row(tick=None) + row(symbol=None), "instrument 2: symbol is missing"),
    ("instrument_a_table", 6, '[instrument]\nsymbol = "A"\n', "instrument is no list; each entry begins with [[instrument]]"),
    ("instrument_a_number", 6, "instrument = [7]\n", "instrument 1: not a table"),
    ("symbol_with_a_space", 6, row(symbol='"IRS 5Y"'), f'instrument 1: symbol = "IRS 5Y" {NO_NAME}'),
    ("symbol_a_number", 6, row() + row(symbol="5"), f"instrument 2: symbol {NO_NAME}"),
    ("tick_zero", 6, row(tick="0"), f"instrument 1: tick = 0 {TICK}"),
    ("tick_a_fraction", 6, row(tick="0.5"), f"instrument 1: tick {TICK}"),
    ("tick_too_great", 6, row(tick="1_000_000_000_001"), f"instrument 1: tick = 1000000000001 {TICK}"),
    ("least_negative", 6, row(least="-1"), f"instrument 1: least = -1 {LEAST}"),
    ("least_too_great", 6, row(least="1_000_000_000_000_001"), f"instrument 1: least = 1000000000000001 {LEAST}"),
    ("life_too_long", 6, row(rfq_life="86401"), f"instrument 1: rfq_life = 86401 {LIFE}"),
    ("delay_too_short", 6, row(delay_ms="999"), f"instrument 1: delay_ms = 999 {DELAY}"),
    ("delay_too_long", 6, row() + row(symbol='"B"', delay_ms="3600001"), f"instrument 2: delay_ms = 3600001 {DELAY}"),
    ("too_many", 5, "".join(ROW.format(f"S{k}") for k in range(257)), "instrument has 257 entries, at most 256 are allowed"),
    ("symbol_twice", 3, row() + row(symbol='"B"') + row(), "instrument 3: symbol = IRS5Y: an earlier entry has it"),
]
