/* Shows what libmseed 2 (Debian's libmseed-dev) reads in a file, or writes one with it, for readers.py:

       libmseed_reads records 0|1 FILE SAMPLES   a line for each record; 1: what is no data record is skipped
       libmseed_reads traces FILE SAMPLES        a line for each trace of the library's
       libmseed_reads write ENCODING ORDER LENGTH RATE FILE < SAMPLES   ORDER 0 little-endian, 1 big-endian
       libmseed_reads version

   Samples go to the file SAMPLES as they lie in memory, in the order of the lines. Times are the library's own,
   in microseconds from 1970. The status is 0 only if every call succeeded; what was read before stands in the lines. */
#include <libmseed.h>

static void fail(const char *name, const char *what)
{
    fflush(stdout);
    fprintf(stderr, "%s: %s\n", name, what);
    exit(1);
}

static FILE *made(const char *name)
{
    FILE *file = fopen(name, "wb");
    if (file == NULL)
        fail(name, "cannot be made");
    return file;
}

static void closed(FILE *file, const char *name)
{
    if (fclose(file) != 0 || fflush(stdout) != 0)
        fail(name, "cannot write");
}

static void put_samples(const void *samples, int64_t count, char type, FILE *to)
{
    size_t size = type == 0 ? 0 : (size_t)ms_samplesize(type);
    if (count > 0 && fwrite(samples, size, (size_t)count, to) != (size_t)count)
        fail("samples", "cannot write");
}

/* Name with quality; start; rate as factor and multiplier, and as a number; samples said and decoded; their type;
   encoding; length of the record. */
static void show_record(MSRecord *record, FILE *to)
{
    char name[50];
    msr_srcname(record, name, 1);
    printf("%s %lld %d %d %.9g %lld %lld %c %d %d\n", name, (long long)record->starttime, record->fsdh->samprate_fact,
           record->fsdh->samprate_mult, record->samprate, (long long)record->samplecnt, (long long)record->numsamples,
           record->sampletype ? record->sampletype : '-', record->encoding, record->reclen);
    put_samples(record->datasamples, record->numsamples, record->sampletype, to);
}

static void show_records(flag skips, const char *name, const char *samples)
{
    MSRecord *record = NULL;
    FILE *to = made(samples);
    int code;
    while ((code = ms_readmsr(&record, name, 0, NULL, NULL, skips, 1, 0)) == MS_NOERROR)
        show_record(record, to);
    closed(to, samples);
    if (code != MS_ENDOFFILE)
        fail("libmseed", ms_errorstr(code));
}

/* Name with quality, start, rate and number of samples. */
static void show_traces(const char *name, const char *samples)
{
    MSTraceGroup *group = NULL;
    FILE *to = made(samples);
    char id[50];
    int code = ms_readtraces(&group, name, 0, -1.0, -1.0, 1, 0, 1, 0);
    for (MSTrace *trace = group == NULL ? NULL : group->traces; trace != NULL; trace = trace->next) {
        mst_srcname(trace, id, 1);
        printf("%s %lld %.17g %lld %c\n", id, (long long)trace->starttime, trace->samprate,
               (long long)trace->numsamples, trace->sampletype ? trace->sampletype : '-');
        put_samples(trace->datasamples, trace->numsamples, trace->sampletype, to);
    }
    closed(to, samples);
    if (code != MS_NOERROR)
        fail("libmseed", ms_errorstr(code));
}

static void put_record(char *record, int length, void *to)
{
    if (fwrite(record, (size_t)length, 1, to) != 1)
        fail("records", "cannot write");
}

/* One channel from the start of 2020, whose samples come on standard input. The library frees them as it packs. */
static void write_records(int encoding, int order, int length, double rate, const char *name)
{
    const size_t most = 1 << 22;
    MSTrace *trace = mst_init(NULL);
    int32_t *samples = malloc(most * sizeof *samples);
    FILE *to = made(name);
    int64_t count, packed;
    if (trace == NULL || samples == NULL)
        fail(name, "no memory");
    count = (int64_t)fread(samples, sizeof *samples, most, stdin);
    strcpy(trace->network, "XX");
    strcpy(trace->station, "TEST");
    strcpy(trace->channel, "HHZ");
    trace->dataquality = 'D';
    trace->starttime = ms_timestr2hptime("2020-01-01T00:00:00");
    trace->samprate = rate;
    trace->sampletype = 'i';
    trace->datasamples = samples;
    trace->numsamples = trace->samplecnt = count;
    if (mst_pack(trace, put_record, to, length, (flag)encoding, (flag)order, &packed, 1, 0, NULL) < 0)
        fail(name, "cannot pack");
    if (packed != count)
        fail(name, "samples are left");
    closed(to, name);
}

int main(int count, char **words)
{
    const char *command = count > 1 ? words[1] : "";
    if (count == 5 && strcmp(command, "records") == 0)
        show_records(words[2][0] == '1', words[3], words[4]);
    else if (count == 4 && strcmp(command, "traces") == 0)
        show_traces(words[2], words[3]);
    else if (count == 7 && strcmp(command, "write") == 0)
        write_records(atoi(words[2]), atoi(words[3]), atoi(words[4]), atof(words[5]), words[6]);
    else if (count == 2 && strcmp(command, "version") == 0)
        puts(LIBMSEED_VERSION);
    else
        fail("usage", "records 0|1 FILE SAMPLES, traces FILE SAMPLES, write .. FILE < SAMPLES, or version");
    return 0;
}
