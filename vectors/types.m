/*
 * Types of our own, for whose encodings compilers are asked (see README.md).
 *
 * Compiled for Apple's runtime, the texts stand in the constants text_NAME, with size_NAME and sizing_NAME
 * beside them, and in the class's own tables; part_METHOD_N is the type that a method was declared with, 0 for
 * its result. Built for the GNU runtime, it is a program that prints them.
 */

/* Whether a type's size can be held against the row of its target, where sizes are without padding. */
enum {
    EXACT,   /* no padding on this target */
    PADDED,  /* padding or shared bytes of bitfields, or no size at all */
    FOREIGN, /* a type that the crate does not know: its text is refused */
};

/* For an int before a double: on armv7, for iOS, doubles stand at multiples of 4, so that there is no padding. */
#define ALIGNED (_Alignof(double) == 4 ? EXACT : PADDED)

@class Tariff;
@protocol Rated;

/* Codes. */
typedef char Char;
typedef signed char SignedChar;
typedef short Short;
typedef int Int;
typedef long Long;
typedef long long LongLong;
typedef unsigned char UChar;
typedef unsigned short UShort;
typedef unsigned int UInt;
typedef unsigned long ULong;
typedef unsigned long long ULongLong;
typedef float Float;
typedef double Double;
typedef long double LongDouble;
typedef _Complex float FloatComplex;
typedef _Complex double DoubleComplex;
typedef _Complex long double LongDoubleComplex;
typedef _Bool Boolean;
typedef char *String;
typedef const char *ConstString;
typedef unsigned char *Octets;
typedef id Object;
typedef id<Rated> Conforming;
typedef Tariff *Instance;
typedef Class ClassObject;
typedef SEL Selector;
typedef enum { thirdParty, partCover, fullCover } Cover;

/* Pointers. */
typedef void *Anything;
typedef const void *ConstAnything;
typedef int *Ints;
typedef const int *ConstInts;
typedef int *const ConstPointer;
typedef double ***Threefold;
typedef const char **Strings;
typedef const char *const *ConstStrings;
typedef id *Objects;
typedef SEL *Selectors;
typedef struct Opaque *Handle;
typedef struct Opaque **HandleOut;

/* Functions and blocks. */
typedef double (*Rule)(int, double);
typedef void (*Hook)(void);
typedef Rule (*RuleFinder)(const char *);
#ifdef __BLOCKS__
typedef double (^RuleBlock)(int);
typedef void (^HookBlock)(void);
#endif

/* Arrays. */
typedef int Band[12];
typedef float *Curves[12];
typedef short Grid[3][4];
typedef char Code[1];
typedef int Nothing[0];
typedef double (*Row)[8];

/* Records. */
typedef struct Rate {
    int band;
    double factor;
} Rate;
typedef struct Point {
    double x, y;
} Point;
typedef struct Box {
    Point low, high;
} Box;
typedef struct {
    int first, last;
} Unnamed;
typedef struct Outer {
    struct {
        int a;
        struct {
            float b, c;
        } inner;
    } middle;
    int d;
} Outer;
typedef struct Empty {
} Empty;
typedef struct Link {
    struct Link *next;
    void *what;
} Link;
typedef struct Policy {
    id holder;
    const char *number;
    Rate *rates;
    Rate **tables;
    SEL renew;
    Class kind;
} Policy;
typedef struct Table {
    Rate rates[4];
    Point grid[2][2];
} Table;
typedef struct Flexible {
    int count;
    int items[];
} Flexible;
typedef struct Driver_2 {
    Rule rule;
    struct Opaque *state;
    Link links[2];
} Driver_2;
typedef struct __attribute__((packed)) Packed {
    char tag;
    int value;
    double factor;
} Packed;

/* Unions. */
typedef union Number {
    int i;
    float f;
} Number;
typedef union Value {
    double d;
    void *p;
    Rate *rate;
} Value;
typedef union {
    unsigned char bytes[4];
    unsigned int word;
} UnnamedUnion;
typedef struct Tagged {
    unsigned long long tag;
    Value value;
} Tagged;
typedef union Shapes {
    Box box;
    Point corners[2];
} Shapes;

/* Bitfields. */
typedef struct Flags {
    unsigned int active : 1;
    unsigned int band : 4;
    unsigned int : 0;
    unsigned int rest : 20;
} Flags;
typedef struct Mixed {
    int i;
    float f[3];
    int a : 3;
    int b : 2;
    char c;
} Mixed;
typedef struct Octet {
    unsigned char all : 8;
} Octet;
typedef struct FullWord {
    int all : 32;
} FullWord;
typedef struct LongBits {
    unsigned long long low : 40;
    unsigned long long high : 24;
} LongBits;
#ifdef __clang__ /* gcc cannot encode these */
typedef struct BoolBits {
    _Bool yes : 1;
    _Bool no : 1;
} BoolBits;
#endif

/* Pointers to records: one, two and three deep, and inside of records. */
typedef Rate *RatePointer;
typedef Rate **RatePointer2;
typedef Rate ***RatePointer3;
typedef const Rate *ConstRatePointer;
typedef Box *BoxPointer;
typedef Value *ValuePointer;
typedef Value **ValuePointer2;
typedef Table *TablePointer;
typedef Flags *FlagsPointer;
typedef Rate (*RateRow)[3];
typedef Rate *RatePointers[3];
typedef Rate **RatePointers2[3];

/* Atomics, which gcc's Objective-C does not have. */
#ifdef __clang__
typedef _Atomic(int) AtomicInt;
typedef _Atomic(void *) AtomicPointer;
typedef _Atomic(Rate) AtomicRate;
typedef _Atomic(int) *AtomicIntPointer;
typedef _Atomic(Rate *) AtomicRatePointer;
typedef struct Counter {
    _Atomic(int) count;
    _Atomic(unsigned int) limit;
} Counter;
#endif

/* Types that the crate does not know. */
#ifdef __SIZEOF_INT128__
typedef __int128 Int128;
typedef unsigned __int128 UInt128;
#endif
#ifndef __clang__
typedef float Vector __attribute__((vector_size(16)));
#endif

#ifdef __BLOCKS__
#define BLOCKS(X) X(RuleBlock, EXACT) X(HookBlock, EXACT)
#else
#define BLOCKS(X)
#endif
#ifdef __clang__
#define CLANG_ONLY(X) \
    X(AtomicInt, EXACT) X(AtomicPointer, EXACT) X(AtomicRate, PADDED) X(AtomicIntPointer, EXACT) \
    X(AtomicRatePointer, EXACT) X(Counter, EXACT) X(BoolBits, PADDED)
#define GCC_ONLY(X)
#else
#define CLANG_ONLY(X)
#define GCC_ONLY(X) X(Vector, FOREIGN)
#endif
#ifdef __SIZEOF_INT128__
#define LARGE(X) X(Int128, FOREIGN) X(UInt128, FOREIGN)
#else
#define LARGE(X)
#endif

#define TYPES(X) \
    X(Char, EXACT) X(SignedChar, EXACT) X(Short, EXACT) X(Int, EXACT) X(Long, EXACT) \
    X(LongLong, EXACT) X(UChar, EXACT) X(UShort, EXACT) X(UInt, EXACT) X(ULong, EXACT) \
    X(ULongLong, EXACT) X(Float, EXACT) X(Double, EXACT) X(LongDouble, EXACT) \
    X(FloatComplex, EXACT) X(DoubleComplex, EXACT) X(LongDoubleComplex, EXACT) \
    X(Boolean, EXACT) X(String, EXACT) X(ConstString, EXACT) X(Octets, EXACT) X(Object, EXACT) \
    X(Conforming, EXACT) X(Instance, EXACT) X(ClassObject, EXACT) X(Selector, EXACT) X(Cover, EXACT) \
    X(Anything, EXACT) X(ConstAnything, EXACT) X(Ints, EXACT) X(ConstInts, EXACT) X(ConstPointer, EXACT) \
    X(Threefold, EXACT) X(Strings, EXACT) X(ConstStrings, EXACT) X(Objects, EXACT) X(Selectors, EXACT) \
    X(Handle, EXACT) X(HandleOut, EXACT) X(Rule, EXACT) X(Hook, EXACT) X(RuleFinder, EXACT) BLOCKS(X) \
    X(Band, EXACT) X(Curves, EXACT) X(Grid, EXACT) X(Code, EXACT) X(Nothing, EXACT) \
    X(Row, EXACT) X(Rate, ALIGNED) X(Point, EXACT) X(Box, EXACT) X(Unnamed, EXACT) \
    X(Outer, EXACT) X(Empty, EXACT) X(Link, EXACT) X(Policy, EXACT) X(Table, ALIGNED) \
    X(Flexible, EXACT) X(Driver_2, EXACT) X(Packed, EXACT) X(Number, EXACT) \
    X(Value, EXACT) X(UnnamedUnion, EXACT) X(Tagged, EXACT) X(Shapes, EXACT) \
    X(Flags, PADDED) X(Mixed, PADDED) X(Octet, EXACT) X(FullWord, EXACT) X(LongBits, PADDED) \
    X(RatePointer, EXACT) X(RatePointer2, EXACT) X(RatePointer3, EXACT) \
    X(ConstRatePointer, EXACT) X(BoxPointer, EXACT) X(ValuePointer, EXACT) X(ValuePointer2, EXACT) \
    X(TablePointer, EXACT) X(FlagsPointer, EXACT) X(RateRow, EXACT) X(RatePointers, EXACT) \
    X(RatePointers2, EXACT) CLANG_ONLY(X) LARGE(X) GCC_ONLY(X)

/* A protocol: Apple's compiler writes its signatures a second time, with class names and the signatures of blocks.
   Each of them has one of these. */
#ifdef __BLOCKS__
@protocol Priced
- (Tariff *)pricedBy:(Tariff *)other base:(double)base;
- (id<Rated>)ratedBy:(id<Rated>)rated count:(int)count;
- (double)applied:(RuleBlock)block to:(Tariff *)other;
- (void)when:(HookBlock)block;
@end
#define PRICED <Priced>
#else
#define PRICED
#endif

/* A class: the encodings of its variables and the signatures of its methods. */
@interface Tariff PRICED {
  @public
    Class isa;
    int band;
    double factor;
    Tariff *parent;
    id<Rated> rated;
    id any;
    const char *title;
    Rate rate;
    Rate *rates;
    Rate **tables;
    Unnamed range;
    Value value;
    SEL action;
    Band bands;
    Tariff *children[4];
    Rule rule;
    unsigned int active : 1;
    unsigned int level : 7;
#ifdef __BLOCKS__
    RuleBlock block;
#endif
#ifdef __clang__
    _Atomic(int) users;
#endif
}
- (double)factorForBand:(int)number;
- (double)premium:(double)base table:(const Rate *)table count:(int)count;
- (Rate)rateAt:(unsigned long)index;
- (Box)boundsOf:(Shapes)shapes in:(Box *)box;
- (void)setParent:(Tariff *)other title:(const char *)text;
- (oneway void)notify:(in const char *)text reply:(out int *)code with:(inout id *)object;
- (bycopy id)copyOf:(byref id)object action:(SEL)selector kind:(Class)kind;
- (_Bool)isValid;
- (Rule)ruleNamed:(char *)name from:(Handle)handle;
- (long double)sum:(float *)values of:(unsigned char)count flags:(Flags)flags;
- (void)setActive:(_Bool)yes code:(char)code year:(short)year age:(unsigned char)age;
- (unsigned long long)count:(long long)first of:(unsigned short)second from:(unsigned long)third;
- (Number)number:(Number)number value:(Value)value;
- (Packed)packed:(Packed)packed code:(char)code;
- (double)bands:(Band)bands grid:(Grid)grid;
- (Hook)rule:(Rule)first hook:(Hook)hook finder:(RuleFinder)finder;
- (DoubleComplex)sum:(FloatComplex)first and:(LongDouble)second;
- (Class)kind:(Class)kind action:(SEL)action objects:(id *)objects;
- (void)many:(int)a :(char)b :(double)c :(id)d :(float)e :(short)f :(Point)g :(int *)h;
- (Table)table:(Table)table;
- (Rate **)rates:(Rate **)first policy:(Policy *)policy;
- (Mixed)mixed:(Mixed)mixed bits:(LongBits)bits;
- (Empty)empty:(Empty)empty unnamed:(Unnamed)range outer:(Outer)outer;
- (oneway void)ping;
+ (Tariff *)tariff;
+ (id)tariffWithTitle:(const char *)text handle:(Handle *)handle;
@end

@implementation Tariff
- (double)factorForBand:(int)number {
    return number;
}
- (double)premium:(double)base table:(const Rate *)table count:(int)count {
    return base * table[count - 1].factor;
}
- (Rate)rateAt:(unsigned long)index {
    return rates[index];
}
- (Box)boundsOf:(Shapes)shapes in:(Box *)box {
    return shapes.box;
}
- (void)setParent:(Tariff *)other title:(const char *)text {
}
- (oneway void)notify:(in const char *)text reply:(out int *)code with:(inout id *)object {
}
- (bycopy id)copyOf:(byref id)object action:(SEL)selector kind:(Class)kind {
    return object;
}
- (_Bool)isValid {
    return 1;
}
- (Rule)ruleNamed:(char *)name from:(Handle)handle {
    return rule;
}
- (long double)sum:(float *)values of:(unsigned char)count flags:(Flags)flags {
    return count;
}
- (void)setActive:(_Bool)yes code:(char)code year:(short)year age:(unsigned char)age {
}
- (unsigned long long)count:(long long)first of:(unsigned short)second from:(unsigned long)third {
    return first;
}
- (Number)number:(Number)number value:(Value)value {
    return number;
}
- (Packed)packed:(Packed)packed code:(char)code {
    return packed;
}
- (double)bands:(Band)bands grid:(Grid)grid {
    return bands[0];
}
- (Hook)rule:(Rule)first hook:(Hook)hook finder:(RuleFinder)finder {
    return hook;
}
- (DoubleComplex)sum:(FloatComplex)first and:(LongDouble)second {
    return first;
}
- (Class)kind:(Class)kind action:(SEL)action objects:(id *)objects {
    return kind;
}
- (void)many:(int)a :(char)b :(double)c :(id)d :(float)e :(short)f :(Point)g :(int *)h {
}
- (Table)table:(Table)table {
    return table;
}
- (Rate **)rates:(Rate **)first policy:(Policy *)policy {
    return first;
}
- (Mixed)mixed:(Mixed)mixed bits:(LongBits)bits {
    return mixed;
}
- (Empty)empty:(Empty)empty unnamed:(Unnamed)range outer:(Outer)outer {
    return empty;
}
- (oneway void)ping {
}
#ifdef __BLOCKS__
- (Tariff *)pricedBy:(Tariff *)other base:(double)base {
    return other;
}
- (id<Rated>)ratedBy:(id<Rated>)rated count:(int)count {
    return rated;
}
- (double)applied:(RuleBlock)block to:(Tariff *)other {
    return 0;
}
- (void)when:(HookBlock)block {
}
#endif
+ (Tariff *)tariff {
    return 0;
}
+ (id)tariffWithTitle:(const char *)text handle:(Handle *)handle {
    return 0;
}
@end

/* The types that each method was declared with: its name with _ for each colon, the part's number, the type. */
#define PARTS(X) \
    X(factorForBand_, 0, double) X(factorForBand_, 1, int) \
    X(premium_table_count_, 0, double) X(premium_table_count_, 1, double) X(premium_table_count_, 2, const Rate *) \
    X(premium_table_count_, 3, int) X(rateAt_, 0, Rate) X(rateAt_, 1, unsigned long) \
    X(boundsOf_in_, 0, Box) X(boundsOf_in_, 1, Shapes) X(boundsOf_in_, 2, Box *) \
    X(setParent_title_, 0, void) X(setParent_title_, 1, Tariff *) X(setParent_title_, 2, const char *) \
    X(notify_reply_with_, 0, void) X(notify_reply_with_, 1, const char *) X(notify_reply_with_, 2, int *) \
    X(notify_reply_with_, 3, id *) X(copyOf_action_kind_, 0, id) X(copyOf_action_kind_, 1, id) \
    X(copyOf_action_kind_, 2, SEL) X(copyOf_action_kind_, 3, Class) X(isValid, 0, _Bool) \
    X(ruleNamed_from_, 0, Rule) X(ruleNamed_from_, 1, char *) X(ruleNamed_from_, 2, Handle) \
    X(sum_of_flags_, 0, long double) X(sum_of_flags_, 1, float *) X(sum_of_flags_, 2, unsigned char) \
    X(sum_of_flags_, 3, Flags) X(setActive_code_year_age_, 0, void) X(setActive_code_year_age_, 1, _Bool) \
    X(setActive_code_year_age_, 2, char) X(setActive_code_year_age_, 3, short) \
    X(setActive_code_year_age_, 4, unsigned char) X(count_of_from_, 0, unsigned long long) \
    X(count_of_from_, 1, long long) X(count_of_from_, 2, unsigned short) X(count_of_from_, 3, unsigned long) \
    X(number_value_, 0, Number) X(number_value_, 1, Number) X(number_value_, 2, Value) \
    X(packed_code_, 0, Packed) X(packed_code_, 1, Packed) X(packed_code_, 2, char) \
    X(bands_grid_, 0, double) X(bands_grid_, 1, Band) X(bands_grid_, 2, Grid) \
    X(rule_hook_finder_, 0, Hook) X(rule_hook_finder_, 1, Rule) X(rule_hook_finder_, 2, Hook) \
    X(rule_hook_finder_, 3, RuleFinder) X(sum_and_, 0, DoubleComplex) X(sum_and_, 1, FloatComplex) \
    X(sum_and_, 2, LongDouble) X(kind_action_objects_, 0, Class) X(kind_action_objects_, 1, Class) \
    X(kind_action_objects_, 2, SEL) X(kind_action_objects_, 3, id *) \
    X(many________, 0, void) X(many________, 1, int) X(many________, 2, char) X(many________, 3, double) \
    X(many________, 4, id) X(many________, 5, float) X(many________, 6, short) X(many________, 7, Point) \
    X(many________, 8, int *) X(table_, 0, Table) X(table_, 1, Table) \
    X(rates_policy_, 0, Rate **) X(rates_policy_, 1, Rate **) X(rates_policy_, 2, Policy *) \
    X(mixed_bits_, 0, Mixed) X(mixed_bits_, 1, Mixed) X(mixed_bits_, 2, LongBits) \
    X(empty_unnamed_outer_, 0, Empty) X(empty_unnamed_outer_, 1, Empty) X(empty_unnamed_outer_, 2, Unnamed) \
    X(empty_unnamed_outer_, 3, Outer) X(ping, 0, void) X(tariff, 0, Tariff *) \
    X(tariffWithTitle_handle_, 0, id) X(tariffWithTitle_handle_, 1, const char *) \
    X(tariffWithTitle_handle_, 2, Handle *) PRICED_PARTS(X)

#ifdef __BLOCKS__
#define PRICED_PARTS(X) \
    X(pricedBy_base_, 0, Tariff *) X(pricedBy_base_, 1, Tariff *) X(pricedBy_base_, 2, double) \
    X(ratedBy_count_, 0, id<Rated>) X(ratedBy_count_, 1, id<Rated>) X(ratedBy_count_, 2, int) \
    X(applied_to_, 0, double) X(applied_to_, 1, RuleBlock) X(applied_to_, 2, Tariff *) \
    X(when_, 0, void) X(when_, 1, HookBlock)
#else
#define PRICED_PARTS(X)
#endif

#ifdef __clang__

#define TEXT(name, sizing) \
    const char text_##name[] = @encode(name); \
    const unsigned long long size_##name = sizeof(name); \
    const int sizing_##name = sizing;
TYPES(TEXT)

#define PART(method, at, type) const char part_##method##_##at[] = @encode(type);
PARTS(PART)

#else

#include <objc/runtime.h>
#include <stdio.h>

#define SHOW(name, sizing) printf("encode %s %s %zu %d\n", #name, @encode(name), sizeof(name), sizing);

#define SHOW_PART(method, at, type) printf("part %s_%d %s\n", #method, at, @encode(type));

static void show_methods(Class class) {
    unsigned int count, i;
    Method *methods = class_copyMethodList(class, &count);
    for (i = 0; i < count; i++) {
        const char *name = sel_getName(method_getName(methods[i]));
        printf("method %s %s - 0\n", name, method_getTypeEncoding(methods[i]));
    }
}

int main(void) {
    unsigned int count, i;
    Class class = objc_getClass("Tariff");
    Ivar *variables = class_copyIvarList(class, &count);
    TYPES(SHOW)
    PARTS(SHOW_PART)
    for (i = 0; i < count; i++) {
        printf("ivar %s %s - 0\n", ivar_getName(variables[i]), ivar_getTypeEncoding(variables[i]));
    }
    show_methods(class);
    show_methods(object_getClass((id)class));
    return 0;
}

#endif
