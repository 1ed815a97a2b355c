/* The two implementations as tables of calls. */
#include "calls.h"

#include "pathplus.h"
#include "plain.h"

const struct calls library_calls = {"library", pathplus_plain_image, pathplus_minimal_image,
                                    pathplus_normal_form, pathplus_selects};

const struct calls plain_calls = {"plain C", plain_plain_image, plain_minimal_image,
                                  plain_normal_form, plain_selects};
