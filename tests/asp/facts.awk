# The facts of an accepted station file for law.lp, and of the A and B lines of its key, where that is read too.
function field(k) { return substr($0, 5 * k - 3, 5) + 0 }
function blank(k) { return substr($0, 5 * k - 3, 5) == "     " }
/^P/ { printf "plain(%d,%d).\n", field(1), field(2) }
/^L/ { printf "signal(%d,%d,%d). file(%d,%d).\n", ++e, field(1), field(2), e, field(3) }
/^D/ { printf "turnout(%d,%d,%d,%d). file(%d,%d).\n", ++e, field(1), field(2), field(3), e, field(4) }
/^T/ { t++; for (k = 1; k <= 4 && !blank(k); k++) printf "stands(%d,%d).\n", t, field(k) }
/^A/ { printf "shown(1,%d,%d,%d).\n", ++a, field(1), field(2) }
/^B/ { printf "shown(2,%d,%d,%d).\n", ++b, field(1), field(2) }
