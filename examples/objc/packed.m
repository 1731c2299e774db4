/* A bundle that does not fit: its rates have the loader's fields and no padding between them. The encodings are the
   same, and a rate that is passed as it is takes 12 bytes in place of 16: all behind it stands elsewhere. */
#include <objc/objc.h>

struct __attribute__((packed)) Rate {
    int band;
    double factor;
};

__attribute__((objc_root_class))
@interface Premium {
    Class isa;
}
- (double)premium:(double)base floor:(struct Rate)floor table:(struct Rate *)table count:(int)count;
@end

@implementation Premium
- (double)premium:(double)base floor:(struct Rate)floor table:(struct Rate *)table count:(int)count {
    int i;
    for (i = 0; i < count; i++) {
        base *= table[i].factor < floor.factor ? floor.factor : table[i].factor;
    }
    return base;
}
@end
