/*
 * Opens a bundle, asks the runtime for a method's type encoding, and calls the method only if each type is
 * equivalent to what the loader itself was compiled with, and stands where the loader would put it.
 */
#include <dlfcn.h>
#include <inttypes.h>
#include <objc/runtime.h>
#include <stdio.h>
#include <string.h>

#include "berzhotun.h"

struct Rate {
    int band;
    double factor;
};

typedef double (*PremiumMethod)(id, SEL, double, struct Rate, struct Rate *, int);

/* The numbers of the signature: where each argument is in the call's frame, one right behind the other, and for the
   result the size of it all. */
enum {
    AT_SELF = 0,
    AT_CMD = AT_SELF + sizeof(id),
    AT_BASE = AT_CMD + sizeof(SEL),
    AT_FLOOR = AT_BASE + sizeof(double),
    AT_TABLE = AT_FLOOR + sizeof(struct Rate),
    AT_COUNT = AT_TABLE + sizeof(struct Rate *),
    FRAME = AT_COUNT + sizeof(int),
};

/* The method's types as this file's compiler encodes them, in the order of a signature. */
static const struct part {
    const char *name, *type;
    uint64_t offset;
} parts[] = {
    {"result", @encode(double), FRAME},
    {"self", @encode(id), AT_SELF},
    {"_cmd", @encode(SEL), AT_CMD},
    {"base", @encode(double), AT_BASE},
    {"floor", @encode(struct Rate), AT_FLOOR},
    {"table", @encode(struct Rate *), AT_TABLE},
    {"count", @encode(int), AT_COUNT},
};
enum { PARTS = sizeof parts / sizeof parts[0] };

struct tree {
    uint64_t words[BERZHOTUN_MAX_WORDS];
    uint8_t names[BERZHOTUN_MAX_NAMES];
};

#define LENT(tree) (tree).words, BERZHOTUN_MAX_WORDS, (tree).names, BERZHOTUN_MAX_NAMES

/* Whether the signature's type, where it begins, its length and its number in `entry`, is the part's. */
static int part_fits(const struct part *part, const char *signature, const uint64_t entry[3]) {
    static struct tree wanted;
    uint64_t values[3], fits[1];
    const char *type = signature + entry[0];
    if (berzhotun_from_str((const uint8_t *)part->type, strlen(part->type), LENT(wanted), values) != 0 ||
        berzhotun_equivalent_to_str(LENT(wanted), (const uint8_t *)type, (size_t)entry[1], fits) != 0) {
        return 0;
    }
    printf("  %-8s expected %-12s %2" PRIu64 "  has %-12.*s %2" PRIu64 "  %s\n", part->name, part->type,
           part->offset, (int)entry[1], type, entry[2],
           fits[0] != 1 ? "NO, another type" : entry[2] != part->offset ? "NO, another number" : "yes");
    return fits[0] == 1 && entry[2] == part->offset;
}

/* Why the method is not to be called, or none. */
static const char *misfit(const char *signature) {
    static uint64_t list[BERZHOTUN_MAX_SIGNATURE];
    uint64_t values[3];
    uint64_t refusal = berzhotun_signature((const uint8_t *)signature, strlen(signature), list,
                                           BERZHOTUN_MAX_SIGNATURE, values);
    const char *first = NULL;
    size_t i;
    if (refusal != 0) {
        printf("  refusal %" PRIu64 " at place %" PRIu64 "\n", refusal, values[0]);
        return "a signature that cannot be read";
    }
    if (values[0] != PARTS) {
        return "another count of arguments";
    }
    for (i = 0; i < PARTS; i++) {
        if (!part_fits(&parts[i], signature, list + 3 * i) && first == NULL) {
            first = parts[i].name;
        }
    }
    return first;
}

static void call(Class class, Method method) {
    static struct Rate table[] = {{3, 1.25}, {7, 0.8}, {12, 1.1}};
    static const struct Rate floor = {7, 0.9};
    id premium = class_createInstance(class, 0);
    PremiumMethod premium_of = (PremiumMethod)(void (*)(void))method_getImplementation(method);
    printf("called: 400.00 becomes %.2f\n", premium_of(premium, method_getName(method), 400, floor, table, 3));
}

static int load(const char *path) {
    const char *slash = strrchr(path, '/');
    const char *bundle = slash == NULL ? path : slash + 1;
    Class class = dlopen(path, RTLD_NOW) == NULL ? Nil : objc_getClass("Premium");
    SEL premium = sel_registerName("premium:floor:table:count:");
    Method method = class == Nil ? NULL : class_getInstanceMethod(class, premium);
    const char *name;
    if (method == NULL) {
        printf("%s: there is no -[Premium premium:floor:table:count:]\n", bundle);
        return 1;
    }
    printf("%s: -[Premium premium:floor:table:count:] is %s\n", bundle, method_getTypeEncoding(method));
    name = misfit(method_getTypeEncoding(method));
    if (name != NULL) {
        printf("turned away because of %s: the method was not called\n", name);
        return 1;
    }
    call(class, method);
    return 0;
}

int main(int count, char **arguments) {
    if (count != 2) {
        fprintf(stderr, "usage: loader BUNDLE\n");
        return 2;
    }
    return load(arguments[1]);
}
