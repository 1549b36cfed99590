/* Eight threads, each with its own ends, make exchanges at once. */
#include <pthread.h>
#include <stdio.h>

#include "check.h"
#include "exchange.h"

#define THREADS 8
#define EXCHANGES 50

static void *work(void *argument) {
    static _Thread_local struct exchange exchange;
    int number = *(int *)argument;
    for (int i = 0; i < EXCHANGES; i++) {
        struct setup setup = usual_setup();
        char name[32], password[32], key[32];
        snprintf(name, sizeof name, "DOM\\user%d.%d", number, i);
        snprintf(password, sizeof password, "password %d.%d", number, i);
        snprintf(key, sizeof key, "the key %d", number);
        setup.name = name;
        setup.password = setup.server_password = password;
        setup.client_key = setup.server_key = key;
        setup.client_least = setup.server_least = 0;
        setup.client_version = setup.server_version = 2 + (uint32_t)(number + i) % 5;
        if (i % 10 == 9)
            setup.server_key = "another key";
        exchange_make(&exchange, &setup);
        exchange_run(&exchange, NULL, NULL);
        if (i % 10 == 9)
            check_withheld(&exchange);
        else
            check_delegated(&exchange, name, password);
        exchange_release(&exchange);
    }
    return NULL;
}

int main(void) {
    pthread_t threads[THREADS];
    int numbers[THREADS];
    for (int i = 0; i < THREADS; i++) {
        numbers[i] = i;
        CHECK(pthread_create(&threads[i], NULL, work, &numbers[i]) == 0);
    }
    for (int i = 0; i < THREADS; i++)
        CHECK(pthread_join(threads[i], NULL) == 0);
    return checks_done("threads");
}
