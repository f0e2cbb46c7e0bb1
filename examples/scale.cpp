#include "scale.h"
#include "scale.h"

int one = scale(METER);
long far = scale(FAR, 2);
