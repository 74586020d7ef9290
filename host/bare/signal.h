#include <system.h>
