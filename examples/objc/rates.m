/* A bundle that fits: a table of bands and rating factors. */
#include <objc/objc.h>

struct Rate {
    int band;
    double factor;
};

__attribute__((objc_root_class))
@interface Premium {
    Class isa;
}
- (double)premium:(double)base floor:(struct Rate)floor table:(struct Rate *)table count:(int)count;
@end

@implementation Premium
- (double)premium:(double)base floor:(struct Rate)floor table:(struct Rate *)table count:(int)count {
    int i;
    for (i = 0; i < count; i++) {
        base *= table[i].factor < floor.factor ? floor.factor : table[i].factor;
    }
    return base;
}
@end
