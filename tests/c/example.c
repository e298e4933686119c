/* The seven calls from C, on one table and its answer: example TABLE ANSWER writes the formula, an empty line and the procedure, or
 * `refused`, a tab and the number. It does so from the files alone, and then again with a tree, where all has to come out the same. */
#include "curdfuture.h"
#include <stdio.h>
#include <stdlib.h>
#include <string.h>

#define MOST 65537 /* one byte more than a table or an answer may have, so that question 2 or 12 sees it */
#define NO_SUCH_LINE 11

struct file {
    uint8_t bytes[MOST];
    size_t length;
};

static struct file table, answer;
static uint8_t text[CURDFUTURE_TEXT_BYTES], listing[CURDFUTURE_LISTING_BYTES];

static void read_file(const char *path, struct file *file) {
    FILE *stream = fopen(path, "rb");
    if (stream == NULL) {
        perror(path);
        exit(2);
    }
    file->length = fread(file->bytes, 1, MOST, stream);
    fclose(stream);
}

/* From the files alone: the formula until there are no more lines, then the procedure. The question that is not met, or 0. */
static size_t from_files(void) {
    size_t question, used, line = 0;
    while ((question = curdfuture_write_formula(table.bytes, table.length, line, text, sizeof text, &used, &line)) == 0)
        fwrite(text, 1, used, stdout);
    if (question != NO_SUCH_LINE)
        return question;
    question = curdfuture_list_answer(table.bytes, table.length, answer.bytes, answer.length, listing, sizeof listing, &used);
    if (question == 0) {
        printf("\n");
        fwrite(listing, 1, used, stdout);
    }
    return question;
}

static void hold(int holds, const char *what) {
    if (!holds) {
        fprintf(stderr, "example: not so: %s\n", what);
        exit(1);
    }
}

/* Do the records read as a tree: the root may hold one job alone, every other node lies one below its parent, and a child count is that of
 * the nodes with that parent? A header with the fields in another order shows here. */
static int is_tree(const struct curdfuture_node *tree, size_t nodes) {
    static uint64_t children[CURDFUTURE_TREE_RECORDS];
    uint64_t root_jobs = tree[0].jobs;
    for (size_t i = 1; i < nodes; i++) {
        if (tree[i].parent >= i || tree[i].depth != tree[tree[i].parent].depth + 1)
            return 0;
        children[tree[i].parent]++;
    }
    for (size_t i = 0; i < nodes; i++)
        if (children[i] != tree[i].children)
            return 0;
    return tree[0].depth == 0 && tree[0].parent == 0 && tree[0].steps == 0 && root_jobs != 0 && (root_jobs & (root_jobs - 1)) == 0;
}

/* The formula's lines with the tree are those without it. */
static void same_lines(const struct curdfuture_node *tree, size_t clauses) {
    static uint8_t own[CURDFUTURE_TEXT_BYTES];
    size_t used, next, own_used, own_next;
    for (size_t line = 0; line <= clauses; line = next) {
        hold(curdfuture_write_formula(table.bytes, table.length, line, text, sizeof text, &used, &next) == 0, "the line is there");
        hold(curdfuture_write_text(table.bytes, table.length, tree, CURDFUTURE_TREE_RECORDS, line, own, sizeof own, &own_used,
                                   &own_next) == 0,
             "the line is there with the tree");
        hold(next > line && own_next == next && own_used == used && memcmp(own, text, used) == 0, "the same lines with the tree");
    }
}

/* With a tree, which is built once and lent to every call, and with the values in hand. The question that is not met, or 0. */
static size_t with_tree(void) {
    static struct curdfuture_node tree[CURDFUTURE_TREE_RECORDS];
    static uint8_t values[CURDFUTURE_VALUES], own[CURDFUTURE_LISTING_BYTES];
    size_t question, nodes, variables, clauses, built, count, used;
    question = curdfuture_check(table.bytes, table.length, &nodes, &variables, &clauses);
    hold(curdfuture_build(table.bytes, table.length, tree, CURDFUTURE_TREE_RECORDS, &built) == question, "built where it is accepted");
    if (question != 0)
        return question;
    hold(built == nodes && is_tree(tree, built), "a tree of so many nodes");
    same_lines(tree, clauses);
    question = curdfuture_take_answer(table.bytes, table.length, tree, CURDFUTURE_TREE_RECORDS, answer.bytes, answer.length, values,
                                      sizeof values, &count);
    if (question != 0)
        return question;
    hold(count == variables, "a value for each variable");
    question = curdfuture_list_procedure(table.bytes, table.length, tree, CURDFUTURE_TREE_RECORDS, values, sizeof values, own, sizeof own,
                                         &used);
    hold(memcmp(own, listing, sizeof own) == 0, "the same listing with the tree");
    return question;
}

int main(int count, char **words) {
    if (count != 3) {
        fprintf(stderr, "example TABLE ANSWER\n");
        return 2;
    }
    read_file(words[1], &table);
    read_file(words[2], &answer);
    size_t question = from_files();
    if (question != 0)
        printf("refused\t%zu\n", question);
    hold(with_tree() == question, "the same outcome with the tree");
    return 0;
}
