"""The numbers for "no": of what each is said, its condition in documents 01 and 02, and what it means to a desk.

One row for each number, in document 01's order of tests; a new number is a new row.
"""
REASONS = {
    21: ("tape", "tape under 16 or over 65,536 bytes", "The file is no tape: it is too short or too long to be one."),
    22: ("tape", "trailer's first word or last word wrong; moving, also a tape already in the wanted form",
         "The last 16 bytes are not a trailer: it begins with neither CUBT nor CUB2, or does not end with zero. Or the tape that `cube move` was given has the wanted form already."),
    23: ("tape", "lengths don't add up",
         "The trailer's offset and event count do not give the tape's length, with 32 bytes for an event in the old form and 40 in the new: bytes are missing, or there are too many."),
    25: ("tape", "moving back, an event's last two words aren't both 0", "The old form has no room for a participant, and moving the tape to it would lose one, or what else stands there."),
    26: ("tape", "the moved tape would have more than 65,536 bytes", "In the new form each event has 8 bytes more, and with them the tape would be too long to be one."),
    1: ("order", "an order field outside its stated form (size 0 is 3); of a collared order only one field set, or either or the result not a price",
        "Some field of the order has a value that no order may have: a side, a mode, a mark, a price, a size or a time; or a collared order's displayed price and collar "
        "do not stand together, or do not give a price."),
    2: ("order", "BB > NBB or BO < NBO", "The exchange's own quote is better than the national best, which can't be."),
    3: ("order", "size 0, (b)(8)", "The order is for no contract."),
    4: ("order", "time < open, (b)(4)", "The order came before the market opened."),
    5: ("order", "time + 1,000 >= close, (b)(5)", "The order came in the last second before the close, or after it."),
    6: ("order", "halted, (b)(10)", "Trading in the series was halted."),
    7: ("order", "another auction open, (c)", "Another auction in the series was under way."),
    8: ("order", "NBB >= NBO, (b)(9)", "The national market was locked or crossed."),
    9: ("order", "size < 50 and BO - BB = 1, (b)(6)(A)", "The order is under 50 contracts and the exchange's market is one cent wide: there is no price to improve to."),
    10: ("order", "limit < lower bound, (b)(2)", "The order's limit is outside the range of prices that the auction may trade at."),
    13: ("order", "initiating price below the lower bound, (b)(1)(D)", "The range is empty: the collared order on the other side leaves the order, which is under 50 contracts, no price to trade at."),
    11: ("order", "stop or auto-match limit > initiating price, (c)(1)", "The Contra Order's stop, or its auto-match limit, is worse than the price at which the auction would begin."),
    12: ("order", "size < 50, NBO - NBB = 1, and the guaranteed price isn't NBO - 1, (b)(6)(B)",
         "Under 50 contracts, where the national market is one cent wide, the guaranteed price must improve on it by that cent."),
    31: ("event", "the auction has ended", "The record came after the auction's end."),
    32: ("event", "event outside its stated form", "Some field of the record has a value that no event of its kind may have, or there is no such kind."),
    33: ("event", "sequence not above the highest taken (0 before any)", "The record was sent again, or out of its order: only rising sequences are taken."),
    34: ("event", "time below that of the last event taken", "The record's time runs backwards."),
    35: ("event", "GTX on the CUBE order's side", "A response has to be on the other side of the order."),
    36: ("event", "GTX or amend above the initiating price", "The response's price, or the price that it is amended to, is worse than the price at which the auction began."),
    37: ("event", "cancel or amend names no live GTX", "No such response stands: it never came, was cancelled, was amended (and has the amend's sequence since), or is a limit order."),
    38: ("event", "a response has to be placed and all 64 places are live", "Sixty-four responses stand already."),
    24: ("record", "lent bytes too short for the record or the moved tape (writers: after 1 or 32; moving: last; readers: first)",
         "A program lent too few bytes for a record, a moved tape or a listing, or what `cube watch --live` reads ended inside the order record. No listing of a tape shows this."),
    39: ("fills", "fewer than 390 words from the start place, or a start past the end", "A program lent too few words for the fills. No listing of a tape shows this."),
    40: ("fills", "fills asked for before the ending (before 39)", "A program asked for the fills of an auction that is still open. No listing of a tape shows this."),
}


def condition(number):
    """The condition of a number, or that there is no such number."""
    return REASONS[number][1] if number in REASONS else "no number of documents 01 and 02"


def line(number):
    """A number in words: of what it is said, the condition, and its meaning."""
    of, when, meaning = REASONS[number]
    return "%d  (%s) %s\n    %s\n" % (number, of, when, meaning)
