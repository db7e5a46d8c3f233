/* The stored files and programs, from the folder that --embed-dir names. */
#include <stdint.h>
extern const uint8_t cases[], programs[];
extern const uint32_t cases_length, programs_length;
const uint8_t cases[] = {
#embed <cases.bin>
};
const uint8_t programs[] = {
#embed <programs.bin>
};
const uint32_t cases_length = sizeof cases, programs_length = sizeof programs;
