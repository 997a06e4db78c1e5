#include "capability.h"
struct CAPABILITY("mutex") lock { int s; };
struct lock mu;
int g GUARDED_BY(mv);
