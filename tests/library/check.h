/* What the tests share: a check that says its line, and texts as octets. */
#include "dch.h"
#include <stdio.h>
#include <stdlib.h>
#include <string.h>
#define CHECK(x) do { if (!(x)) { printf("%s:%d: %s\n", __FILE__, __LINE__, #x); exit(1); } } while (0)
#define TEXT(s) (const uint8_t *)(s), strlen(s)
