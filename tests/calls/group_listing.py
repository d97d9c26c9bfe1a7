"""The listing: while something stands, runs, waits or is stored; its refusals."""
from case import case, byte, clock, host, line, lines, listed, nothing, sends, state, stop, store, text, x

ZERO = sends("0")

case("listing_empty", "an empty store lists as 9 alone, on a fresh board and after k", listed("9"), line("@01", "0"), listed("9"), store("133"), line("@0k", "0"), listed("9"))

case("listing_of_all_codes", "code and numbers with commas, no space, no needless zeros",
     line("@07", "0"), store("0 1,30,-2,10000,003,00600,-0,77", "m 0,30,8388607,31,-8388608,32,0,33", "n 7", "z 0", "3 0,1", "5 65535", "1 126", "2 33,-7", "133", "3 1,-1"),
     listed("01,30,-2,10000,3,600,0,77", "m0,30,8388607,31,-8388608,32,0,33", "n7", "z0", "30,1", "565535", "1126", "233,-7", "133", "31,-1", "9"))

SPACED = ["0 1, 30, -2, 10000, 003, 00600, -0, 77", "m 0, 30,8388607,31, -8388608, 32,0, 33", "3 0, 1", "2 33, -7", "133", "3 1, -1"]
SHOWN = listed("01,30,-2,10000,3,600,0,77", "m0,30,8388607,31,-8388608,32,0,33", "30,1", "233,-7", "133", "31,-1", "9")
HELD = state(axes=7, held=(116, 6, 7), job="Storing")  # 36 + 36 + 12 + 12 + 8 + 12 bytes
case("listing_of_spaces", "a program sent with spaces behind its commas is listed without any, as the same program without them is",
     line("@07", "0"), lines("0", "@0i", *SPACED), SHOWN, HELD, line("9", "Ga0003"), listed("9"),
     lines("0", "@0i", *[r.replace(", ", ",") for r in SPACED]), SHOWN, HELD, line("9", "Ga0003"), listed("9"))

SENT = ["133", "3 25, -1", "2 33, -2"]  # 8, 12 and 12 bytes
ALTERED = (listed("133", "325,-1", "233,-2", "9") + host("W 12 26", "W 13 1") + listed("133", "3282,-1", "233,-2", "9") + host("W 16 254", "W 24 34", "W 28 255") +
           listed("133", "3282,-2", "234,-1", "9") + host("W 11 3") + listed("G") + host("W 11 2", "W 19 0") + listed("G") + host("W 19 255", "W 20 0") + listed("G"))
case("spaces_store_the_same_bytes", "sent with spaces and without: the host finds the numbers at the same bytes; then the front sent anew without spaces, the rest as it was",
     line("@01", "0"), lines("0", "@0i", *SENT), ALTERED, line("9", "G"), lines("0", "@0i", *[r.replace(", ", ",") for r in SENT]), ALTERED, line("9", "G"),
     lines("0", "@0i", *SENT), listed("133", "325,-1", "233,-2", "9"), line("9", "Ge0002"), lines("0", "@0i", "133", "3 25,-1", "9"), listed("133", "325,-1", "9"),
     host("K 32 3 1"), listed("133", "325,-1", "233,-2", "9"), state(axes=1, held=(32, 3, 1)))

case("listing_standing", "the listing while a program stands; it changes nothing, and the program goes on",
     line("@01", "0"), store("133", "0 2,600"), line("@0S"), clock(sends("!"), *x(1)), stop, listed("133", "02,600", "9"), listed("133", "02,600", "9"),
     state(axes=1, position=(1, 0, 0), held=(20, 2, 1), job="Moving", standing=1), line("@0S"), clock(*x(1), ZERO))

case("listing_running", "the listing while a program runs, is in a delay or waits; a half line stays",
     line("@01", "0"), store("5 2", "233,1"), line("@0S"), listed("52", "233,1", "9"), clock("Pause"), listed("52", "233,1", "9"), clock("Pause", "Done"),
     listed("52", "233,1", "9"), byte(33), clock(ZERO), text("@0"), listed("52", "233,1", "9"), line("k", "0"), listed("9"))

case("listing_storing", "the listing while storing has the records stored so far",
     line("@01", "0"), line("@0i", "0"), listed("9"), line("133", "0"), listed("133", "9"), line("132", "1"), line("5 1", "0"), listed("133", "51", "9"), line("9", "0"),
     listed("133", "51", "9"))

case("listing_refused", "102 for a store of another length, then 103, then G; 106 comes before G and cannot be lent, the text buffer is long enough",
     line("@01", "0"), store("133"), host("H axes 2", "K 7 1 1", "M 16383"), listed("102"), listed("103"), host("M 16385"), listed("102"), host("H axes 1"), listed("G"),
     host("M 0"), listed("102"), host("K 8 1 1", "M 16384"), listed("133", "9"), host("R 0"), listed("133", "9"), host("R 31", "M 16383"), listed("102"),
     line("@0P", "0000000000000000000"))

case("listing_refused_standing", "a listing refused while a program stands changes nothing",
     line("@01", "0"), store("133", "0 2,600"), line("@0S"), clock(sends("!"), *x(1)), stop, host("M 1"), listed("102"), host("H x 0"), listed("103"), host("H x 1", "W 1 44"),
     listed("G"), host("W 1 43"), state(axes=1, position=(1, 0, 0), held=(20, 2, 1), job="Moving", standing=1), line("@0S"), clock(*x(1), ZERO))

case("listing_not_readable", "bytes in use that are not exactly the records; a mark, code, count or number wrong; other axes",
     line("@01", "0"), store("133", "0 1,600"), host("K 20 1 1"), listed("G"), host("K 19 2 1"), listed("G"), host("K 21 2 1"), listed("G"), host("K 20 3 1"), listed("G"),
     host("K 8 1 1"), listed("133", "9"), host("K 0 0 1"), listed("9"), host("K 8 0 1"), listed("G"), host("K 20 2 3"), listed("G"), host("K 20 2 0"), listed("G"),
     host("K 8 1 7"), listed("133", "9"), host("K 20 2 1", "W 8 214"), listed("G"), host("W 8 215", "W 10 49"), listed("G"), host("W 10 109"), listed("133", "m1,600", "9"),
     host("W 11 3"), listed("G"), host("W 11 2", "W 16 29", "W 17 0"), listed("G"), host("W 16 30"), listed("133", "m1,30", "9"), nothing())

case("listing_by_the_stores_axes", "the store's axes rule the listing, not the board's",
     line("@03", "0"), store("0 1,600,2,700"), line("@01", "0"), listed("01,600,2,700", "9"), byte(254), listed("01,600,2,700", "9"), lines("0", "@07"),
     listed("01,600,2,700", "9"))
