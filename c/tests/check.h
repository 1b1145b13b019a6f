/* What the tests of the services share. */
#ifndef CHECK_H
#define CHECK_H

#include <stdio.h>

extern unsigned checks, failures;

#define ID(name) NvMConf_NvMBlockDescriptor_##name
#define CHECK(it) do { checks++; if (!(it)) { failures++; printf("%s:%d: %s\n", __FILE__, __LINE__, #it); } } while (0)

#endif
