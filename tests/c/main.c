/* The tests of the C interface. Arguments: the file of the data sheets' rows, and a seed for the random histories and rounds. */
#include <stdio.h>
#include <stdlib.h>

#include "check.h"
#include "groups.h"
#include "reference.h"
#include "stage.h"

int main(int count, char **arguments)
{
    if (count != 3) {
        fprintf(stderr, "usage: %s ROWS SEED\n", arguments[0]);
        return 2;
    }
    reference_prepare();
    stage_prepare();
    group_rows(arguments[1]);
    group_examples();
    group_refusals();
    group_sizes();
    group_registers();
    group_soundness();
    group_dots();
    group_heads();
    group_chip();
    group_transactions();
    group_stores();
    group_locks();
    group_faults();
    group_cplusplus();
    group_order(strtoull(arguments[2], NULL, 0));
    group_histories(strtoull(arguments[2], NULL, 0));
    group_rounds(strtoull(arguments[2], NULL, 0));
    return checks_result();
}
