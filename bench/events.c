/* Prints the events of a file as libyaml parses it: a line each, with place, anchor and value. */
#include <stdio.h>
#include <yaml.h>

int main(int count, char **words) {
    FILE *file = count == 2 ? fopen(words[1], "rb") : NULL;
    static const char *names[] = {"", "+STR", "-STR", "+DOC", "-DOC", "=ALI", "=VAL", "+SEQ", "-SEQ", "+MAP", "-MAP"};
    yaml_parser_t parser;
    yaml_event_t event;
    if (!file || !yaml_parser_initialize(&parser)) return 1;
    yaml_parser_set_input_file(&parser, file);
    for (yaml_event_type_t type = YAML_NO_EVENT; type != YAML_STREAM_END_EVENT;) {
        if (!yaml_parser_parse(&parser, &event)) return 1;
        type = event.type;
        printf("%s", names[type]);
        if (type == YAML_ALIAS_EVENT) printf(" *%s", event.data.alias.anchor);
        if (type == YAML_SCALAR_EVENT) printf(" :\"%s\"", event.data.scalar.value);
        printf(" @%zu:%zu\n", event.start_mark.line + 1, event.start_mark.column + 1);
        yaml_event_delete(&event);
    }
    yaml_parser_delete(&parser);
    return 0;
}
