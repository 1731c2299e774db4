/* What the examples ask of Apple's header of this name, declared for a machine that has no Apple SDK. */
#pragma once
typedef struct objc_class *Class;
struct objc_object {
    Class isa;
};
typedef struct objc_object *id;
typedef struct objc_selector *SEL;
typedef void (*IMP)(void);
#define Nil ((Class)0)
#define nil ((id)0)
