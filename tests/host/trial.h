/* Calls that garthumor.h does not have, for the tests alone (crates/trial). They return and write as
 * its calls do. */

#ifndef TRIAL_H
#define TRIAL_H

#include <stdint.h>

/* In how many positions two words differ. Refuses 4. */
uint8_t trial_distance(uint32_t a, uint32_t b, uint32_t *distance);

#endif
