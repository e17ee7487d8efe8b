/* hexself.c: the second program's windows under the names of the C calls,
 * for where the archive isn't at hand, and for seeded faults. */
#define hexfile_length s5933_hex_length
#define hexfile_export s5933_hex_export
#define hexfile_load s5933_hex_load
#include "hexfile.c"
