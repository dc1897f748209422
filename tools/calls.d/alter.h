/* Alterations of a block in work, as a careless caller would make them. */
#ifndef CALLS_ALTER_H
#define CALLS_ALTER_H

#include "garvolish.h"
#include "line.h"

/* Begins anew with a block that an opening has just given. */
void alter_from(struct garvolish_block *block);

/* Does what the words after `alter` say, or ends the program if the block does not have it. */
void alter(const struct line *line);

/* How many jobs there are: a number past its limit counts as what it was before it was raised. */
unsigned jobs_held(void);

#endif
