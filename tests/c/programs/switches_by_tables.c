// options: -fjump-tables
// The same switches, through tables of cases.
#include "switches.c"
