/* A bundle that does not fit: its table has a band number where the loader's has a rating factor. Called with the
   loader's table it would take the bytes of a factor for a band. */
#include <objc/objc.h>

struct Rate {
    int first_band;
    long long last_band;
};

__attribute__((objc_root_class))
@interface Premium {
    Class isa;
}
- (double)premium:(double)base floor:(struct Rate)floor table:(struct Rate *)table count:(int)count;
@end

@implementation Premium
- (double)premium:(double)base floor:(struct Rate)floor table:(struct Rate *)table count:(int)count {
    int i;
    for (i = 0; i < count; i++) {
        base += (double)(table[i].last_band - floor.first_band);
    }
    return base;
}
@end
