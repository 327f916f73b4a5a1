//! The help texts.

/// The text of `--help`.
pub const OVERVIEW: &str = "\
Usage: spoutbasket COMMAND ..
       spoutbasket help COMMAND
       spoutbasket --help | --version

Commands:
  compile  make a sheet's chain, the shortest unless a method is named
  ceiling  reckon each method's steps and its ceiling, by which a tariff bills
  check    hold a chain against a sheet, or against two
  choose   take the better of two chains for a sheet
  pool     make one chain of the chains of two sheets
  list     read the amounts back out of a chain
  run      make the control figures of a chain
  figures  make the control figures of a sheet: compile, write, read, check, run
  unpack   make a plain sheet of packed fields
  pack     make packed fields of a sheet

A missing name, or -, is standard input or output. -- ends the options.
Exit status: 0 done, 1 refused, 2 wrong use, 3 input or output failed.
";

/// The commands' texts by name.
pub const COMMANDS: [(&str, &str); 10] = [
    (
        "compile",
        "\
Usage: spoutbasket compile [--best | --method METHOD] [--table | --packed P,Q] [-o CHAIN] [-v] [SHEET]

Makes a sheet's chain and writes its file.

  --best           the fewest steps over every method and parameter (the default)
  --method METHOD  straus:K, K from 1 to 5 with p times K at most 10;
                   yao:K, K from 1 to 8; partition:C, C from 1 to 8
  --table          the sheet is a table, one payslip a line
  --packed P,Q     the sheet is packed fields, of P columns and Q payslips
  -o CHAIN         the file to write, whole or not at all; else standard output
  -v, --verbose    say the method and the steps, with squarings and products, on
                   standard error

Example: spoutbasket compile week.txt -o week.chain
",
    ),
    (
        "ceiling",
        "\
Usage: spoutbasket ceiling [--method METHOD] [--table | --packed P,Q] [--json] [SHEET]

Reckons what a receivers' tariff bills for a sheet by each method and parameter that the
sheet's columns allow: a line METHOD COUNT CEILING, with the steps of the method's chain
and the ceiling, by which the tariff bills and which they never exceed. A short last
group of partition counts in the ceiling at its own size. A chain of more than 16,000
steps has a line too, but compile refuses it.

  --method METHOD  as for compile: that one alone
  --table          the sheet is a table, one payslip a line
  --packed P,Q     the sheet is packed fields, of P columns and Q payslips
  --json           the result as one JSON object

Example: spoutbasket ceiling week.txt
",
    ),
    (
        "check",
        "\
Usage: spoutbasket check [--table | --packed P,Q[,Q2]] [--json] SHEET [SHEET2] CHAIN

Holds a chain against a sheet, whoever made it: passed, or refused with status 1. With
two sheets it is held against the payslips of the first and then of the second, as a
pool has them. Of a chain that passed it says the columns, the payslips and the steps,
and how many of these are squarings, which take one value twice, and how many products
of two values.

  --table            the sheet is a table, one payslip a line; of two sheets, each
  --packed P,Q[,Q2]  the sheet is packed fields, of P columns and Q payslips; of two
                     sheets, each, and Q2 has the payslips of the second
  --json             the result as one JSON object

Example: spoutbasket check week.txt week.chain
",
    ),
    (
        "choose",
        "\
Usage: spoutbasket choose [--table | --packed P,Q] [-o CHAIN] [-v] SHEET FIRST SECOND

Takes, of two chains, the one that makes the sheet; if both do, the one with fewer
steps, the first where they have as many. Writes that file byte for byte.

  --table        the sheet is a table, one payslip a line
  --packed P,Q   the sheet is packed fields, of P columns and Q payslips
  -o CHAIN       the file to write, whole or not at all; else standard output
  -v, --verbose  say which was taken on standard error

Example: spoutbasket choose week.txt ours.chain theirs.chain -o best.chain
",
    ),
    (
        "pool",
        "\
Usage: spoutbasket pool [-o CHAIN] [-v] FIRST SECOND

Makes one chain of two, whose sheets have the same columns: the payslips of the first,
then those of the second. The pool makes both sheets, the first above the second, if
each of the two makes its own; check it against both.

  -o CHAIN       the file to write, whole or not at all; else standard output
  -v, --verbose  say what was pooled, with steps, squarings and products, on standard
                 error

Example: spoutbasket pool staff.chain hourly.chain -o pool.chain
",
    ),
    (
        "list",
        "\
Usage: spoutbasket list [--json] [-v] [CHAIN]

Reads the amounts back out of a chain: a line with its columns, payslips and steps, then
for each payslip a line with its number and its amounts.

  --json         the result as one JSON object
  -v, --verbose  say p + n, the width W of the file's numbers, its bytes, and the steps
                 with squarings and products, on standard error

Example: spoutbasket list week.chain
",
    ),
    (
        "run",
        "\
Usage: spoutbasket run --keys FILE [--json] [CHAIN]

Makes the control figures of a chain, one a line, and says how many multiplications
that took, and how many of them were squarings and how many products.

  --keys FILE  the receiver's modulus, then its bases, one for each column
  --json       the result as one JSON object

Example: spoutbasket run --keys bank.keys week.chain
",
    ),
    (
        "figures",
        "\
Usage: spoutbasket figures --keys FILE [--method METHOD] [--table | --packed P,Q] [--json] [SHEET]

Makes the control figures of a sheet: compiles it, writes the chain, reads it, checks
what was read, and runs it. Says what run does.

  --keys FILE      the receiver's modulus, then its bases, one for each column
  --method METHOD  as for compile; else the one with the fewest steps
  --table          the sheet is a table, one payslip a line
  --packed P,Q     the sheet is packed fields, of P columns and Q payslips
  --json           the result as one JSON object

Example: spoutbasket figures --keys bank.keys week.txt
",
    ),
    (
        "unpack",
        "\
Usage: spoutbasket unpack --packed P,Q [-o SHEET] [-v] [FIELDS]

Reads packed fields, as a ledger host holds amounts, and writes the plain sheet: P and
Q, then a line for each payslip. A field is five bytes, which are nine decimal digits and
the sign, a half-byte each: C for plus, F for unsigned. D, for minus, is refused.

  --packed P,Q   the fields are of P columns and Q payslips, payslip by payslip
  -o SHEET       the file to write, whole or not at all; else standard output
  -v, --verbose  say the sheet's sizes on standard error

Example: spoutbasket unpack --packed 3,4 week.packed -o week.txt
",
    ),
    (
        "pack",
        "\
Usage: spoutbasket pack [--table | --packed P,Q] [-o FIELDS] [-v] [SHEET]

Writes a sheet as packed fields with sign C. Of packed fields it makes the same again,
but for a sign F, which becomes C. An amount above 999,999,999 is refused.

  --table        the sheet is a table, one payslip a line
  --packed P,Q   the sheet is packed fields, of P columns and Q payslips
  -o FIELDS      the file to write, whole or not at all; else standard output
  -v, --verbose  say the sheet's sizes on standard error

Example: spoutbasket pack week.txt -o week.packed
",
    ),
];
