/*
 * Writes images with the stock library of memory mapped values (libpcp_mmv): metrics of all types, with and without an
 * instance domain, with and without helps, and a value each. Each call of that library that makes an image makes some here:
 * mmv_stats_init, mmv_stats2_init and a registry. The library chooses the version: 2 where a name is longer than version 1
 * can hold. It writes to $PCP_TMP_DIR/mmv; mmv.py runs this program and reads what it wrote.
 */
#include <pcp/pmapi.h>
#include <pcp/mmv_stats.h>
#include <stdio.h>
#include <string.h>

#define COUNT(list) ((int)(sizeof(list) / sizeof((list)[0])))
#define LONG_NAME "a_name_of_a_metric_that_is_longer_than_any_of_version_1.which_has_at_most_63_bytes"
#define LONG_INSTANCE "an instance whose name is longer than any of version 1, which has at most 63 bytes"

static const pmUnits count_units = MMV_UNITS(0, 0, 1, 0, 0, PM_COUNT_ONE);
static const pmUnits byte_units = MMV_UNITS(1, 0, 0, PM_SPACE_KBYTE, 0, 0);
static const pmUnits time_units = MMV_UNITS(0, 1, 0, 0, PM_TIME_USEC, 0);
static const pmUnits no_units = MMV_UNITS(0, 0, 0, 0, 0, 0);

static const struct {
    const char *name;
    mmv_metric_type_t type;
    mmv_metric_sem_t semantics;
    const pmUnits *units;
    int domain;
    const char *short_help, *long_help;
    double value;
    const char *text;
} rows[] = {
    { "plain.i32", MMV_TYPE_I32, MMV_SEM_INSTANT, &no_units, 0, "a signed number", "of 32 bits", -2147483648.0, NULL },
    { "plain.u32", MMV_TYPE_U32, MMV_SEM_COUNTER, &count_units, 0, "a number", NULL, 4294967295.0, NULL },
    { "plain.i64", MMV_TYPE_I64, MMV_SEM_DISCRETE, &byte_units, 0, NULL, "of 64 bits", -9007199254740992.0, NULL },
    { "plain.u64", MMV_TYPE_U64, MMV_SEM_COUNTER, &byte_units, 0, NULL, NULL, 9007199254740992.0, NULL },
    { "plain.float", MMV_TYPE_FLOAT, MMV_SEM_INSTANT, &no_units, 0, "a float", "a float", 1.5, NULL },
    { "plain.double", MMV_TYPE_DOUBLE, MMV_SEM_INSTANT, &time_units, 0, NULL, NULL, -0.25, NULL },
    { "plain.text", MMV_TYPE_STRING, MMV_SEM_DISCRETE, &no_units, 0, "a text", NULL, 0, "so it is" },
    { "plain.elapsed", MMV_TYPE_ELAPSED, MMV_SEM_COUNTER, &time_units, 0, NULL, NULL, 17, NULL },
    { "each.i32", MMV_TYPE_I32, MMV_SEM_COUNTER, &count_units, 1, NULL, NULL, 3, NULL },
    { "each.u64", MMV_TYPE_U64, MMV_SEM_COUNTER, &count_units, 2, "by thread", "for each thread", 4, NULL },
    { "each.text", MMV_TYPE_STRING, MMV_SEM_DISCRETE, &no_units, 1, NULL, NULL, 0, "of an instance" },
    { "each.double", MMV_TYPE_DOUBLE, MMV_SEM_INSTANT, &no_units, 2, NULL, NULL, 0.5, NULL },
};

static const struct {
    int domain, number;
    const char *name;
} instances[] = { { 1, 0, "first" }, { 1, 1, "second" }, { 2, 7, "a thread" }, { 2, 3, "b" }, { 2, 2147483647, "last" } };

static const char *domain_helps[3][2] = { { NULL, NULL }, { "disks", "the disks of this host" }, { NULL, NULL } };

/* The value of a metric, and of each of its instances. */
static void set(void *map, const char *name, const char *instance, int row)
{
    pmAtomValue *value = mmv_lookup_value_desc(map, name, instance);

    if (value == NULL)
        fprintf(stderr, "%s has no value\n", name);
    else if (rows[row].type == MMV_TYPE_STRING)
        mmv_set_string(map, value, rows[row].text, (int)strlen(rows[row].text));
    else
        mmv_set_value(map, value, rows[row].value);
}

static void set_all(void *map)
{
    for (int row = 0; row < COUNT(rows); row++) {
        if (rows[row].domain == 0)
            set(map, rows[row].name, NULL, row);
        for (int k = 0; k < COUNT(instances); k++)
            if (instances[k].domain == rows[row].domain)
                set(map, rows[row].name, instances[k].name, row);
    }
}

/* Of names that stand in their rows. */
static int with_names_inside(const char *file)
{
    static mmv_metric_t metrics[COUNT(rows)];
    static mmv_instances_t members[2][COUNT(instances)];
    static mmv_indom_t domains[2];
    void *map;

    for (int k = 0; k < COUNT(rows); k++) {
        mmv_metric_t *m = &metrics[k];
        strcpy(m->name, rows[k].name);
        m->item = k + 1;
        m->type = rows[k].type;
        m->semantics = rows[k].semantics;
        m->dimension = *rows[k].units;
        m->indom = rows[k].domain;
        m->shorttext = (char *)rows[k].short_help;
        m->helptext = (char *)rows[k].long_help;
    }
    for (int k = 0; k < COUNT(instances); k++) {
        mmv_indom_t *d = &domains[instances[k].domain - 1];
        mmv_instances_t *i = &members[instances[k].domain - 1][d->count++];
        i->internal = instances[k].number;
        strcpy(i->external, instances[k].name);
    }
    for (int k = 0; k < 2; k++) {
        domains[k].serial = k + 1;
        domains[k].instances = members[k];
        domains[k].shorttext = (char *)domain_helps[k + 1][0];
        domains[k].helptext = (char *)domain_helps[k + 1][1];
    }
    map = mmv_stats_init(file, 41, 0, metrics, COUNT(rows), domains, 2);
    if (map == NULL)
        return 1;
    set_all(map);
    return 0;
}

/* Of names of any length. */
static int with_names(const char *file, int cluster, int has_long_names)
{
    mmv_metric2_t metrics[COUNT(rows) + 1] = { 0 };
    mmv_instances2_t members[2][COUNT(instances)];
    mmv_indom2_t domains[2] = { 0 };
    int count = COUNT(rows);
    void *map;

    for (int k = 0; k < COUNT(rows); k++) {
        mmv_metric2_t *m = &metrics[k];
        m->name = (char *)rows[k].name;
        m->item = k + 1;
        m->type = rows[k].type;
        m->semantics = rows[k].semantics;
        m->dimension = *rows[k].units;
        m->indom = rows[k].domain;
        m->shorttext = (char *)rows[k].short_help;
        m->helptext = (char *)rows[k].long_help;
    }
    if (has_long_names) {
        metrics[count] = metrics[0];
        metrics[count].name = LONG_NAME;
        metrics[count++].item = 1023;
    }
    for (int k = 0; k < COUNT(instances); k++) {
        mmv_indom2_t *d = &domains[instances[k].domain - 1];
        mmv_instances2_t *i = &members[instances[k].domain - 1][d->count++];
        i->internal = instances[k].number;
        i->external = instances[k].name;
    }
    for (int k = 0; k < 2; k++) {
        domains[k].serial = k + 1;
        domains[k].instances = members[k];
        domains[k].shorttext = (char *)domain_helps[k + 1][0];
        domains[k].helptext = (char *)domain_helps[k + 1][1];
    }
    map = mmv_stats2_init(file, cluster, MMV_FLAG_NOPREFIX, metrics, count, domains, 2);
    if (map == NULL)
        return 1;
    set_all(map);
    return 0;
}

/* By a registry, row by row. */
static int registered(const char *file, int cluster, int has_long_names)
{
    mmv_registry_t *registry = mmv_stats_registry(file, cluster, MMV_FLAG_PROCESS);
    void *map;

    if (registry == NULL)
        return 1;
    for (int k = 1; k <= 2; k++)
        mmv_stats_add_indom(registry, k, domain_helps[k][0], domain_helps[k][1]);
    for (int k = 0; k < COUNT(instances); k++)
        mmv_stats_add_instance(registry, instances[k].domain, instances[k].number, instances[k].name);
    for (int k = 0; k < COUNT(rows); k++)
        mmv_stats_add_metric(registry, rows[k].name, k + 1, rows[k].type, rows[k].semantics, *rows[k].units, rows[k].domain,
            rows[k].short_help, rows[k].long_help);
    if (has_long_names) {
        mmv_stats_add_instance(registry, 2, 8, LONG_INSTANCE);
        mmv_stats_add_metric(registry, LONG_NAME, 1023, MMV_TYPE_U64, MMV_SEM_COUNTER, count_units, 2, NULL, NULL);
    }
    map = mmv_stats_start(registry);
    if (map == NULL)
        return 1;
    set_all(map);
    if (has_long_names) {
        pmAtomValue *value = mmv_lookup_value_desc(map, LONG_NAME, LONG_INSTANCE);
        if (value == NULL)
            return 1;
        mmv_inc_value(map, value, 5);
    }
    return 0;
}

/* The images are files of these names. */
int main(void)
{
    int failed = with_names_inside("init") + with_names("init2", 42, 0) + with_names("init2_long", 43, 1)
        + registered("registry", 44, 0) + registered("registry_long", 45, 1);

    if (failed)
        fprintf(stderr, "%d images weren't made\n", failed);
    return failed != 0;
}
