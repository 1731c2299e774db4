/* What the examples ask of Apple's header of this name, declared for a machine that has no Apple SDK. */
#pragma once
#include <objc/objc.h>
#include <stddef.h>
typedef struct objc_method *Method;
Class objc_getClass(const char *);
Method class_getInstanceMethod(Class, SEL);
id class_createInstance(Class, size_t);
IMP method_getImplementation(Method);
SEL method_getName(Method);
const char *method_getTypeEncoding(Method);
SEL sel_registerName(const char *);
