/* Repacks a file with libmseed 2 (Debian's libmseed-dev), or shows what it reads in one, for against_libmseed.py:

       libmseed_repack stream LENGTH IN OUT    packs what fills a record after each record that is read
       libmseed_repack whole LENGTH IN OUT     packs each trace after the last record is read
       libmseed_repack samples IN              for each trace a line, and its samples as they lie in memory
       libmseed_repack version

   Records are written as big-endian Steim-2, with the header of the trace's first record for their template, as the
   library's own example program does it. The status is 0 only if every call succeeded. */
#include <libmseed.h>

struct output {
    FILE *file;
    const char *name;
};

static void fail(const char *name, const char *what)
{
    fprintf(stderr, "libmseed_repack: %s: %s\n", name, what);
    exit(1);
}

static void write_record(char *record, int length, void *data)
{
    struct output *output = data;
    if (fwrite(record, (size_t)length, 1, output->file) != 1)
        fail(output->name, "cannot write");
}

static void pack(MSTrace *trace, int length, flag flush, struct output *output)
{
    if (trace->numsamples == 0)
        return;
    if (mst_pack(trace, write_record, output, length, DE_STEIM2, 1, NULL, flush, 0, trace->prvtptr) < 0)
        fail(output->name, "cannot pack");
    if (flush && trace->numsamples != 0)
        fail(output->name, "samples are left");
}

static void keep_template(MSTrace *trace, MSRecord *record, const char *name)
{
    MSRecord *template = msr_duplicate(record, 0);
    if (template == NULL)
        fail(name, "no memory for a template");
    template->sequence_number = 1;
    trace->prvtptr = template;
}

/* The traces of a file. If there is an output, the samples that fill records of this length go there at once. */
static MSTraceGroup *read_traces(const char *name, int length, struct output *output)
{
    MSRecord *record = NULL;
    MSTraceGroup *group = mst_initgroup(NULL);
    int code;
    if (group == NULL)
        fail(name, "no memory for traces");
    while ((code = ms_readmsr(&record, name, 0, NULL, NULL, 0, 1, 0)) == MS_NOERROR) {
        MSTrace *trace = mst_addmsrtogroup(group, record, 1, -1.0, -1.0);
        if (trace == NULL)
            fail(name, "cannot add a record");
        if (trace->prvtptr == NULL)
            keep_template(trace, record, name);
        if (output != NULL)
            pack(trace, length, 0, output);
    }
    if (code != MS_ENDOFFILE)
        fail(name, ms_errorstr(code));
    ms_readmsr(&record, NULL, 0, NULL, NULL, 0, 0, 0);
    return group;
}

static void repack(int streaming, int length, const char *name, const char *to)
{
    struct output output = {fopen(to, "wb"), to};
    MSTraceGroup *group;
    if (output.file == NULL)
        fail(to, "cannot be made");
    group = read_traces(name, length, streaming ? &output : NULL);
    for (MSTrace *trace = group->traces; trace != NULL; trace = trace->next)
        pack(trace, length, 1, &output);
    if (fclose(output.file) != 0)
        fail(to, "cannot write");
}

static void show_samples(const char *name)
{
    char id[50], start[40];
    for (MSTrace *trace = read_traces(name, 0, NULL)->traces; trace != NULL; trace = trace->next) {
        size_t count = (size_t)trace->numsamples;
        if (trace->sampletype != 'i' || trace->numsamples != trace->samplecnt)
            fail(name, "not integers, or not all of them");
        if (mst_srcname(trace, id, 1) == NULL || ms_hptime2seedtimestr(trace->starttime, start, 1) == NULL)
            fail(name, "a name or a start that has no text");
        if (printf("%s %.9g %s %zu\n", id, trace->samprate, start, count) < 0)
            fail("standard output", "cannot write");
        if (fwrite(trace->datasamples, sizeof(int32_t), count, stdout) != count)
            fail("standard output", "cannot write");
    }
    if (fflush(stdout) != 0)
        fail("standard output", "cannot write");
}

static void show_version(void)
{
    if (puts("libmseed " LIBMSEED_VERSION) < 0 || fflush(stdout) != 0)
        fail("standard output", "cannot write");
}

static int length_of(const char *word)
{
    char *end;
    long length = strtol(word, &end, 10);
    if (*word == 0 || *end != 0 || length < 128 || length > 1048576)
        fail(word, "not a length");
    return (int)length;
}

int main(int count, char **words)
{
    if (count == 3 && strcmp(words[1], "samples") == 0)
        show_samples(words[2]);
    else if (count == 2 && strcmp(words[1], "version") == 0)
        show_version();
    else if (count == 5 && strcmp(words[1], "stream") == 0)
        repack(1, length_of(words[2]), words[3], words[4]);
    else if (count == 5 && strcmp(words[1], "whole") == 0)
        repack(0, length_of(words[2]), words[3], words[4]);
    else
        fail("usage", "stream|whole LENGTH IN OUT, or samples IN, or version");
    return 0;
}
