/* Info objects, and communicators that are made of MPI_COMM_SELF, right with each MPI. */
#include "check.h"

static int rank, size;

static void pairs(void) {
    MPI_Info info, copy;
    char value[MPI_MAX_INFO_VAL + 1], key[MPI_MAX_INFO_KEY + 1];
    int count = -1, length = -1, flag = -1;
    MPI_Info_create(&info);
    CHECK(MPI_Info_get_nkeys(info, &count) == MPI_SUCCESS && count == 0);
    MPI_Info_set(info, "host", "n1");
    MPI_Info_set(info, " path ", " a b ");
    MPI_Info_set(info, "wdir", "/tmp");
    MPI_Info_set(info, "host", "node2");
    CHECK(MPI_Info_get_nkeys(info, &count) == MPI_SUCCESS && count == 3);
    CHECK(MPI_Info_get(info, "host", MPI_MAX_INFO_VAL, value, &flag) == MPI_SUCCESS && flag && !strcmp(value, "node2"));
    CHECK(MPI_Info_get(info, " path ", MPI_MAX_INFO_VAL, value, &flag) == MPI_SUCCESS && flag && !strcmp(value, " a b "));
    CHECK(MPI_Info_get(info, "path", MPI_MAX_INFO_VAL, value, &flag) == MPI_SUCCESS && !flag);
    CHECK(MPI_Info_get_valuelen(info, "wdir", &length, &flag) == MPI_SUCCESS && flag && length == 4);
    CHECK(MPI_Info_get_valuelen(info, "dir", &length, &flag) == MPI_SUCCESS && !flag);
    CHECK(MPI_Info_get_nthkey(info, 2, key) == MPI_SUCCESS && !strcmp(key, "wdir"));
    CHECK(MPI_Info_dup(info, &copy) == MPI_SUCCESS);
    CHECK(MPI_Info_delete(info, "host") == MPI_SUCCESS && class_of(MPI_Info_delete(info, "host")) == MPI_ERR_INFO_NOKEY);
    CHECK(MPI_Info_get_nthkey(info, 0, key) == MPI_SUCCESS && !strcmp(key, " path "));
    CHECK(MPI_Info_get(copy, "host", MPI_MAX_INFO_VAL, value, &flag) == MPI_SUCCESS && flag && !strcmp(value, "node2"));
    CHECK(MPI_Info_free(&info) == MPI_SUCCESS && info == MPI_INFO_NULL);
    CHECK(MPI_Info_free(&copy) == MPI_SUCCESS && copy == MPI_INFO_NULL);
}

#if MPI_VERSION >= 4
/* Before MPI_Init. */
static void early(void) {
    MPI_Info info;
    char value[8];
    int flag = 0;
    CHECK(MPI_Info_create(&info) == MPI_SUCCESS && MPI_Info_set(info, "a", "b") == MPI_SUCCESS);
    CHECK(MPI_Info_get(info, "a", 7, value, &flag) == MPI_SUCCESS && flag && !strcmp(value, "b"));
    CHECK(MPI_Info_free(&info) == MPI_SUCCESS && info == MPI_INFO_NULL);
}
#endif

/* What both answer alike. */
static void refused(void) {
    MPI_Info info;
    char value[8], longest[3000];
    int flag;
    memset(longest, 'x', sizeof longest);
    longest[sizeof longest - 1] = 0;
    MPI_Info_create(&info);
    CHECK(class_of(MPI_Info_set(info, NULL, "b")) == MPI_ERR_INFO_KEY && class_of(MPI_Info_set(info, "", "b")) == MPI_ERR_INFO_KEY);
    CHECK(class_of(MPI_Info_set(info, longest, "b")) == MPI_ERR_INFO_KEY && class_of(MPI_Info_set(info, "a", longest)) == MPI_ERR_INFO_VALUE);
    CHECK(class_of(MPI_Info_get(info, "", 7, value, &flag)) == MPI_ERR_INFO_KEY && class_of(MPI_Info_get(info, "a", -1, value, &flag)) == MPI_ERR_ARG);
    CHECK(class_of(MPI_Info_get_nthkey(info, -1, value)) == MPI_ERR_ARG && class_of(MPI_Info_get_nkeys(info, NULL)) == MPI_ERR_ARG);
    CHECK(MPI_Info_set(MPI_INFO_NULL, "a", "b") != MPI_SUCCESS && MPI_Comm_set_info(MPI_COMM_WORLD, MPI_INFO_NULL) != MPI_SUCCESS);
    MPI_Info_free(&info);
}

/* MPI_INFO_ENV can be looked at. */
static void environment(void) {
    MPI_Info copy;
    char value[8];
    int count = -1, flag = 1;
    CHECK(MPI_Info_get_nkeys(MPI_INFO_ENV, &count) == MPI_SUCCESS && count >= 0);
    CHECK(MPI_Info_get(MPI_INFO_ENV, "no such key", 7, value, &flag) == MPI_SUCCESS && !flag);
    CHECK(MPI_Info_dup(MPI_INFO_ENV, &copy) == MPI_SUCCESS && MPI_Info_set(copy, "a", "b") == MPI_SUCCESS);
    MPI_Info_free(&copy);
#ifdef ULFM_MPI
    CHECK(class_of(MPI_Info_set(MPI_INFO_ENV, "a", "b")) == MPI_ERR_INFO);
#endif
}

static void hints(void) {
    MPI_Info info, told;
    MPI_Comm made;
    int same;
    MPI_Info_create(&info);
    MPI_Info_set(info, "a", "b");
    CHECK(MPI_Comm_dup_with_info(MPI_COMM_WORLD, info, &made) == MPI_SUCCESS);
    CHECK(MPI_Comm_compare(MPI_COMM_WORLD, made, &same) == MPI_SUCCESS && same == MPI_CONGRUENT);
    CHECK(MPI_Comm_set_info(made, info) == MPI_SUCCESS && MPI_Comm_get_info(made, &told) == MPI_SUCCESS);
    MPI_Info_free(&told);
    MPI_Info_free(&info);
    MPI_Comm_free(&made);
}

/* Messages of a rank to itself, of one tag on several communicators, and a collective on each. */
static void selves(void) {
    MPI_Comm self[4] = {MPI_COMM_SELF};
    MPI_Request requests[4];
    MPI_Group group;
    MPI_Status status;
    int sent[4], got[4], sum, code, members;
    CHECK(MPI_Comm_dup(MPI_COMM_SELF, &self[1]) == MPI_SUCCESS && MPI_Comm_split(MPI_COMM_SELF, rank, 0, &self[2]) == MPI_SUCCESS);
    MPI_Comm_group(self[1], &group);
    CHECK(MPI_Comm_create(MPI_COMM_SELF, group, &self[3]) == MPI_SUCCESS);
    MPI_Group_free(&group);
    for (int k = 0; k < 4; k++) sent[k] = 10 * rank + k, MPI_Isend(&sent[k], 1, MPI_INT, 0, 5, self[k], &requests[k]);
    for (int k = 3; k >= 0; k--) {
        code = MPI_Recv(&got[k], 1, MPI_INT, k % 2 ? MPI_ANY_SOURCE : 0, k / 2 ? MPI_ANY_TAG : 5, self[k], &status);
        CHECK(code == MPI_SUCCESS && got[k] == sent[k] && status.MPI_SOURCE == 0 && status.MPI_TAG == 5);
        MPI_Wait(&requests[k], MPI_STATUS_IGNORE);
        CHECK(MPI_Allreduce(&sent[k], &sum, 1, MPI_INT, MPI_SUM, self[k]) == MPI_SUCCESS && sum == sent[k]);
        MPI_Comm_size(self[k], &members);
        CHECK(members == 1);
    }
    for (int k = 1; k < 4; k++) MPI_Comm_free(&self[k]);
    CHECK(MPI_Comm_split(MPI_COMM_SELF, MPI_UNDEFINED, 0, &self[1]) == MPI_SUCCESS && self[1] == MPI_COMM_NULL);
}

int main(int argc, char **argv) {
    int all = 0;
#if MPI_VERSION >= 4
    early();
#endif
    MPI_Init(&argc, &argv);
    MPI_Comm_rank(MPI_COMM_WORLD, &rank);
    MPI_Comm_size(MPI_COMM_WORLD, &size);
    MPI_Info made; /* where an error would end the run */
    MPI_Info_create(&made);
    MPI_Info_set(made, "key", "value");
    MPI_Info_free(&made);
    MPI_Comm_set_errhandler(MPI_COMM_WORLD, MPI_ERRORS_RETURN);
    pairs();
    refused();
    environment();
    hints();
    for (int k = 0; k < 20; k++) selves();
    MPI_Reduce(&faults, &all, 1, MPI_INT, MPI_SUM, 0, MPI_COMM_WORLD);
    if (rank == 0) printf("faults: %d\n", all);
    MPI_Finalize();
    return faults != 0;
}
