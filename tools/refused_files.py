"""Files that are refused, for tools/test-wagner-list: what is wrong, the file, what is printed, the place, a part of the advice."""


def rows(*lines, end="\n"):
    """A file of these lines. A blank stands for the tab between two fields, a ~ for a blank."""
    return ("\n".join(lines) + end).replace(" ", "\t").replace("~", " ").encode()


def coded(cell):
    """A file whose row 3, Quercus, has this cell as its code 5; the row stands in line 4."""
    return rows("W 4 5", "A 0 0 0 0 0", "B 1 1 1 1 1", f"Quercus 1 2 3 4 {cell}", "D 0 0 0 0 0")


CODE = 'row 3 (Quercus), code 5: '
OWN = ("F 3 1", "A 0", "B 1", "C 2")
UTF = rows("W 2 1", "A 1", "B 2").decode()

REFUSED = [
    # the file as a whole
    ("an empty file", b"", "2 0", "the file is empty", ""),
    ("too long", b"W\t2\t1\n" * 9000, "1 0", "the file has more than 45,000 bytes", ""),
    ("a carriage return behind each line", rows(*UTF.split("\n")[:3], end="\n").replace(b"\n", b"\r\n"), "3 1",
     'number of characters: "1<CR>"', "A carriage return stands at the end of the line"),
    ("carriage returns alone", UTF.replace("\n", "\r").encode(), "3 1",
     '"W<TAB>2<TAB>1<CR>A<TAB>1<CR>B<TAB>2<CR>"', "carriage return alone"),
    ("a byte order mark", b"\xef\xbb\xbf" + UTF.encode(), "3 1", '"<U+FEFF>W<TAB>2<TAB>1"', "begins with a byte order mark"),
    ("UTF-16 with a mark", UTF.encode("utf-16"), "3 1", '"<0xFF><0xFE>W<NUL><TAB><NUL>2<NUL><TAB><..', "The text is UTF-16"),
    ("UTF-16, high byte first", UTF.encode("utf-16-be"), "3 1", '"<NUL>W<NUL>', "The text is UTF-16"),
    ("UTF-16, low byte first", UTF.encode("utf-16-le"), "3 1", '"W<NUL>', "The text is UTF-16"),
    ("a NEXUS file", b"#NEXUS\nbegin data;\n", "3 1", '"#NEXUS"', "This is a NEXUS file"),
    ("a packed spreadsheet", b"PK\x03\x04\x14\x00\n", "3 1", '"PK<0x03><0x04><0x14><NUL>"', "a spreadsheet or a packed file"),
    # line 1
    ("blanks for tabs in line 1", rows("W~4~3"), "3 1", '"W 4 3"', "parted by blanks"),
    ("; for tabs in line 1", rows("W;4;3"), "3 1", '"W;4;3"', "parted by ;"),
    (", for tabs in line 1", rows("W,4,3"), "3 1", '"W,4,3"', "parted by ,"),
    ("column names in line 1", rows("Taxon stamens style"), "3 1", '"Taxon<TAB>stamens<TAB>style"', "a row of column names"),
    ("no line 1", rows("Quercus 1 2"), "3 1", '"Quercus<TAB>1<TAB>2"', "This looks like a row. Write line 1"),
    ("an empty line 1", rows(""), "3 1", '""', "The line is empty"),
    ("a small letter", rows("w 4 3"), "3 1", '"w<TAB>4<TAB>3"', "as a capital"),
    ("line 1 without a line feed", rows("W 4 3", end=""), "3 1", '"W<TAB>4<TAB>3"', "not ended by a line feed"),
    ("line 1 with a field too few", rows("W 4"), "3 1", '"W<TAB>4"', "A field is missing"),
    ("line 1 padded", rows("W 4 3  "), "3 1", '"W<TAB>4<TAB>3<TAB><TAB>"', "Empty cells stand behind the last one"),
    ("an order in an F file", rows("F 4 3 closest"), "3 1", '"F<TAB>4<TAB>3<TAB>closest"', "it has no order"),
    ("a number of taxa with a point", rows("W 4.0 3"), "3 1", 'number of taxa: "4.0"', "a whole number"),
    ("an unknown order", rows("W 4 3 nearest"), "15 1", 'field 4, the order of placing: "nearest"', ""),
    ("an order with a capital", rows("W 4 3 Closest"), "15 1",
     'field 4, the order of placing: "Closest"', "Write closest, in small letters"),
    ("too many taxa", rows("W 65 3"), "4 1", 'number of taxa: "65"', ""),
    ("too many characters", rows("W 64 129"), "4 1", 'number of characters: "129"', ""),
    # weights
    ("a weight of two digits", rows("W 4 3", "V 1 2 10"), "16 2", 'the V line, weight 3: "10"', ""),
    ("a weight too few", rows("W 4 3", "V 1 2"), "16 2", 'the V line has 2 weights, and line 1 says 3 characters: "V<TAB>1<TAB>2"', ""),
    ("weights without a line feed", rows("W 4 3", "V 1 2 3", end=""), "16 2",
     'the V line: "V<TAB>1<TAB>2<TAB>3"', "not ended by a line feed"),
    # rows
    ("a row that is not there", rows("W 3 1", "A 0", "B 1"), "5 4",
     "the file ends before row 3", "Line 1 says 3 taxa, the ancestor among them, and there are 2 rows."),
    ("a row without a line feed", rows("W 2 1", "A 0", "Quercus 1", end=""), "5 3",
     'row 2 (Quercus): "Quercus<TAB>1"', "not ended by a line feed"),
    ("blanks for tabs in a row", rows("W 2 2", "A~0~0"), "8 2",
     'row 1 has 0 codes, and line 1 says 2 characters: "A 0 0"', "parted by blanks"),
    ("; for tabs in a row", rows("W 2 2", "A;0;0"), "8 2", 'row 1 has 0 codes, and line 1 says 2 characters: "A;0;0"', "parted by ;"),
    (", for tabs in a row", rows("W 2 2", "A,0,0"), "8 2", 'row 1 has 0 codes, and line 1 says 2 characters: "A,0,0"', "parted by ,"),
    ("one blank for a tab", rows("W 2 3", "A 0~1 2"), "8 2",
     'row 1 (A) has 2 codes, and line 1 says 3 characters: "A<TAB>0 1<TAB>2"', 'where a tab is wanted: "0 1"'),
    ("a blank in the name alone", rows("W 2 2", "Viola~odorata 0"), "8 2",
     'row 1 (Viola odorata) has 1 code, and line 1 says 2 characters: "Viola odorata<TAB>0"', ""),
    ("an empty line", rows("W 2 2", "A 0 0", "", "B 1 1"), "8 3", "row 2 is an empty line", "Take the line out"),
    ("a code too many in all rows", rows("W 2 2", "A 0 0 0", "B 1 1 1"), "8 2",
     'row 1 (A) has 3 codes, and line 1 says 2 characters: "A<TAB>0<TAB>0<TAB>0"', "should say 3?"),
    ("a padded row", rows("W 2 2", "A 0 0 "), "8 2",
     'row 1 (A) has 3 codes, and line 1 says 2 characters: "A<TAB>0<TAB>0<TAB>"', "Empty cells stand behind"),
    ("column names behind a V line", rows("W 2 2", "V 1 1", "Taxon stamens style", "A 0 0", "B 1 1"), "9 3",
     'row 1 (Taxon), code 1: "stamens"', "a row of column names"),
    ("column names above an empty corner", rows("W 2 2", " stamens style", "A 0 0", "B 1 1"), "6 2",
     'row 1, name: ""', "a row of column names"),
    ("a name with a blank", rows("W 2 1", "Viola~odorata 0"), "6 2", 'row 1, name: "Viola odorata"', "write Viola_odorata"),
    ("a name with an accent", "W\t2\t1\nGéum\t0\n".encode(), "6 2", 'row 1, name: "G<U+00E9>um"', "no accents"),
    ("a name too long", rows("W 2 1", "Abcdefghijklmnopq 0"), "6 2", 'row 1, name: "Abcdefghijklmnopq"', "has 17 letters"),
    ("a name again", rows("W 3 1", "A 0", "B 1", "A 2"), "7 4", 'row 3, name: "A", as row 1', ""),
    # codes
    ("an empty cell", coded(""), "9 4", CODE + '""', "The cell is empty"),
    ("a question mark", coded("?"), "9 4", CODE + '"?"', "A missing code is not provided for"),
    ("a decimal comma", coded("8,5"), "9 4",
     CODE + '"8,5"',
     "This is a decimal number, and codes are whole numbers. Take a smaller unit for this character in all rows, as 85 for 8,5."),
    ("a decimal point", coded("-0.5"), "9 4", CODE + '"-0.5"', "as -5 for -0.5"),
    ("a decimal number that is whole", coded("8.0"), "9 4", CODE + '"8.0"', "write 8."),
    ("several states", coded("2..5"), "9 4", CODE + '"2..5"', "Several states in one cell"),
    ("a state by its letter", coded("red"), "9 4", CODE + '"red"', "a whole number, and write that"),
    ("-0", coded("-0"), "9 4", CODE + '"-0"', "Write 0."),
    ("zeros in front", coded("007"), "9 4", CODE + '"007"', "Take the zeros in front out."),
    ("another minus", coded("\u22123"), "9 4", CODE + '"<U+2212>3"', "write -."),
    ("a blank behind the code", coded("8~"), "9 4", CODE + '"8 "', "A blank stands beside the code"),
    ("quotation marks", coded('"8"'), "9 4", CODE + '""8""', "Quotation marks"),
    ("a byte 0", coded("8\0"), "9 4", CODE + '"8<NUL>"', "no digit and no minus"),
    ("a byte that is no text", coded("8").replace(b"8", b"\x9b8"), "9 4", CODE + '"<0x9B>8"', "no digit and no minus"),
    ("a long cell", coded("1" * 300), "9 4", CODE + '"' + "1" * 40 + '.."', "Take a larger unit"),
    ("a carriage return in a row", coded("8\r"), "9 4", CODE + '"8<CR>"', "A carriage return stands at the end of the line"),
    ("a code out of range", coded("1000"), "10 4", CODE + '"1000"', "Take a larger unit"),
    # behind the rows
    ("an empty line at the end", rows("W 2 1", "A 0", "B 1", ""), "11 4",
     'behind the last line: ""', "Take the empty line at the end out."),
    ("a row too many", rows("W 2 1", "A 0", "B 1", "D 2"), "11 4",
     'behind the last line: "D<TAB>2"', "Line 1 says 2 taxa, the ancestor among them, and there is 1 line more."),
    ("C lines in a W file", rows("W 2 1", "A 0", "B 1", "C 2 1"), "11 4",
     'behind the last line: "C<TAB>2<TAB>1"', "C lines belong to a file that begins with F."),
    ("a C line that is not there", rows(*OWN, "C 2 4", "C 3 4"), "17 7",
     "the file ends before the C line of node 4", "An F file of 3 taxa has 3 C lines, and there are 2 lines."),
    ("C lines out of order", rows(*OWN, "C 2 4", "C 4 1", "C 3 4"), "17 6",
     'the C line of node 3: "C<TAB>4<TAB>1"', "go by rising number of the node"),
    ("a row among the C lines", rows(*OWN, "D 2", "C 2 4"), "17 5",
     'the C line of node 2: "D<TAB>2"', "This looks like a row. Line 1 says 3 taxa, the ancestor among them."),
    ("an ancestor that is no node", rows(*OWN, "C 2 4", "C 3 4", "C 4 5"), "14 0",
     'the C line of node 4: "C<TAB>4<TAB>5"', "The nodes are 1 to 4"),
    ("a node above two in place of one", rows(*OWN, "C 2 4", "C 3 1", "C 4 1"), "14 0",
     "node 1 stands right above 2 nodes: 3, 4", "The ancestor stands right above one node."),
    ("a ring", rows("F 4 1", "A 0", "B 1", "C 2", "D 3", "C 2 1", "C 3 5", "C 4 6", "C 5 6", "C 6 5"), "14 0",
     "going up from node 3 one never comes to node 1", "in a ring"),
]
