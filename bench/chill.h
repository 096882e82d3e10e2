/* Caches and branch predictors as they are when other programs have run for a while. */
#ifndef CHILL_H
#define CHILL_H

/* Throws away what they hold of the caller. */
void chill(void);

#endif
