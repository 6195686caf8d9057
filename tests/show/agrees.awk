# agrees.awk -v KEYED=1 LINES ANSWERS: the first number that `show` names for each line with the offset of a break (LINES: "N NUMBER
# OFFSET", number 0 where no clause applies) and the answer of `member` (ANSWERS, from the second line on). A number that the frame alone
# gives is the answer, or the answer is another and looks at the member: 2, 3; 5 by a default key that does not fit (KEYED=0); 6 and 7 by
# the table. Number 1 has the same offset behind its counts, any other number has none. Prints each line that is otherwise.
FNR == NR { named[$1] = $2; offset[$1] = $3; next }
{
  line = FNR + 1; m = $1
  if (m == "bad" || !(line in named)) next
  n = named[line]
  if (n == 1 || m == 1 || m == 4) fine = m == n
  else if (n == 2) fine = m == 2
  else if (m == 0 || m == 8 || m == 9) fine = n == 0
  else if (m == 2 || m == 3 || m == n) fine = 1
  else if (m == 5) fine = !KEYED && (n == 0 || n > 5)
  else fine = n == 0 || n > m
  if (!fine) print "line " line ": show names " n ", member answers " m
  if (m == 1 ? NF != 4 || $4 != offset[line] : NF != 3) print "line " line ": show breaks at offset " offset[line] ", member prints " $0
}
