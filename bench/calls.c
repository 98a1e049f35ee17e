#include "calls.h"

#include "../include/sffstore.h"
#include "sides.h"

const Calls library = {h_test,         sffstore_test, h_fresh,      h_step,   h_new, h_append, h_correct,
                       h_correct_list, h_undo,        h_undo_layer, h_encode, h_scf};
const Calls plain = {plain_test,         plain_test, plain_fresh,      plain_step,   plain_new, plain_append, plain_correct,
                     plain_correct_list, plain_undo, plain_undo_layer, plain_encode, plain_scf};
