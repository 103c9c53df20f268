//! What `--help` and `--version` print.

pub const HELP: &str = "\
gozhnerim: the parabolic cylinder functions D and V, and their derivatives

usage:
  gozhnerim D ORDER ARGUMENT           value and derivative of D
  gozhnerim V ORDER ARGUMENT           value and derivative of V
  gozhnerim table D ORDER ARGUMENT     all rungs, one a line: rung, its order,
  gozhnerim table V ORDER ARGUMENT       value, derivative (the top rung has none)
  gozhnerim mirror ORDER ARGUMENT      both halves of D, at ARGUMENT and its
                                       negative, and whether they are mirrored;
                                       ORDER is a whole number from 0 to 999
  gozhnerim expansion ORDER ARGUMENT   D by the expansion for large negative
                                       orders, -2147483648 < ORDER <= -20
  gozhnerim maclaurin A X C0 C1 E      w and w' at X, by the series at 0, where
                                       w'' = (X*X/4 + A)*w, w(0) = C0*exp(E)
                                       and w'(0) = C1*exp(E)
  gozhnerim serve                      requests from standard input, one a line,
                                       on held ladders
  gozhnerim --help, --version

options:
  --bits   the bits of value and derivative too, after the other columns;
           for table, its slots in place of the rungs
  --       ends the options: what comes after it is never an option

A number is a decimal such as 2.5 or -1e-3, inf or NaN, or its bits as 0x and 16
hexadecimal digits: 0x4004000000000000 is 2.5. 16 digits alone are an error, as
they could be either: a decimal of 16 digits is written with a decimal point, as
4024000000000000.0. The minus sign of documents, U+2212, is read as -. Numbers
are printed as the shortest decimals that read back exactly.

table --bits: a line for each slot that the table call writes, by rising slot:
  SLOT BITS NUMBER COLUMN RUNG ORDER   the column is value or derivative
Value k is in slot k and derivative k in slot num + k, where num is the whole
part of the size of the order asked for, plus 3. V at a tiny negative order has
a value 2 above its top rung. The call leaves all other slots as they were.

mirror: a line for each rung, x being the argument:
  RUNG, VALUE at x and at -x, DERIVATIVE at x and at -x, and whether the rung is
  mirrored: mirrored, value-differs, derivative-differs or both-differ
At -x a value has to be the one at x, or in odd rungs its negative; a derivative
the one at x, or in even rungs its negative. 0.0 and -0.0 count as equal, and so
do NaNs. The last line says that every rung is mirrored, or how many are not and
which is the first. Of the library it is proved that every rung is.

serve: the lines of input, and the one line on standard output that each has:
  D 2.5 1.0                  VALUE DERIVATIVE WRITTEN CASE: so many rungs were
  V -3 0.5                     written; the case is repeat, climb or start-over
  expansion -25 3            VALUE DERIVATIVE
  maclaurin 0.5 0.25 1 0 0   VALUE DERIVATIVE
  check                      checked RUNGS: so many rungs are held, and each is
                               as a table call has it; or not-held, there is
                               no ladder to check
  release                    released, the ladder is forgotten; or not-held,
                               there was none
D, V, check and release take a ladder's name in front, as `tower1: D 2.5 1.0`
and `tower1: release`, and without it go to the one ladder that has no name. Up
to 1000 ladders are held. expansion and maclaurin use no ladder and take no name.
check works out rungs 0 and 1 again, and tests each later one by the two before
it and each derivative by the values. Where a rung differs it is refusal 7. It
is refusal 6 where rungs do not run forward: D at orders below 0 and x > 0; V at
orders from 0 on and x >= 0, or -10 <= x < 0 and a top rung of an order up to
x*x/2.
In place of such a line there can be one of these on standard output:
  refusal NUMBER: ..         what happened and what to do; the ladder is as before
  error line NUMBER: ..      what is wrong with that line of the input
Lines end in LF or CR LF. Blank lines and lines that begin with # are skipped,
and so is a byte order mark before the first line.

exit status: 0 all answered; 1 a request was refused, a line was bad, a ladder to
check is not held, a rung is not mirrored, or input or output failed; 2 wrong
usage

docs/SUPPORT.md in the repository: refusals, how to reproduce an answer, damaged
tables, halves that differ, where digits are lost
";

/// The versions of the command and of the library linked into it.
pub fn version() -> String {
    let library = gozhnerim::library_version();
    let (first, second, third) = (library / 10_000, library / 100 % 100, library % 100);
    let command = env!("CARGO_PKG_VERSION");
    format!("gozhnerim {command}, library {first}.{second}.{third}\n")
}
