/*
 * For tests: has tools/run/refuse_request.c, which is loaded before all else, refuse the addon's requests for memory.
 *
 *     refuse(number)   begins to count anew, and refuses the request of this number; 0 refuses none
 *     made()           how many there were since
 */
#define _GNU_SOURCE
#include <dlfcn.h>
#include <node_api.h>

static napi_value refuse(napi_env env, napi_callback_info info) {
    size_t count = 1;
    napi_value argument;
    uint32_t number = 0;
    void (*call)(unsigned long) = (void (*)(unsigned long))dlsym(RTLD_DEFAULT, "refuse_request");
    napi_get_cb_info(env, info, &count, &argument, NULL, NULL);
    napi_get_value_uint32(env, argument, &number);
    call(number);
    return NULL;
}

static napi_value made(napi_env env, napi_callback_info info) {
    napi_value value;
    unsigned long (*call)(void) = (unsigned long (*)(void))dlsym(RTLD_DEFAULT, "requests_made");
    (void)info;
    napi_create_uint32(env, (uint32_t)call(), &value);
    return value;
}

NAPI_MODULE_INIT() {
    napi_value function;
    napi_create_function(env, "refuse", NAPI_AUTO_LENGTH, refuse, NULL, &function);
    napi_set_named_property(env, exports, "refuse", function);
    napi_create_function(env, "made", NAPI_AUTO_LENGTH, made, NULL, &function);
    napi_set_named_property(env, exports, "made", function);
    return exports;
}
