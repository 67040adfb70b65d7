/* <readline/readline.h>, <readline/history.h>: lines that are given and kept, and what is called while one is read. */
#if __has_include(<readline/readline.h>)
#include <stdio.h>
#include <stdlib.h>
#include <string.h>
#include <readline/readline.h>
#include <readline/history.h>
static HIST_ENTRY pta_history, *pta_histories[9];
static char pta_line[9];
int rl_point, rl_end, rl_mark, rl_done, rl_num_chars_to_read, rl_catch_signals, rl_catch_sigwinch, rl_editing_mode;
int rl_attempted_completion_over, rl_completion_append_character, rl_completion_type, rl_filename_completion_desired;
int rl_filename_quoting_desired, rl_inhibit_completion, rl_erase_empty_line, history_base, history_length;
int rl_completion_suppress_append, rl_completion_query_items, rl_already_prompted, history_max_entries;
unsigned long rl_readline_state;
const char *rl_readline_name, *rl_library_version, *rl_terminal_name, *rl_basic_word_break_characters;
const char *rl_completer_word_break_characters, *rl_basic_quote_characters, *rl_completer_quote_characters, *rl_special_prefixes;
char *rl_line_buffer, *rl_prompt;
FILE *rl_instream, *rl_outstream;
rl_compentry_func_t *rl_completion_entry_function;
rl_completion_func_t *rl_attempted_completion_function;
rl_hook_func_t *rl_startup_hook, *rl_pre_input_hook, *rl_event_hook;
rl_voidfunc_t *rl_redisplay_function;
rl_getc_func_t *rl_getc_function;
rl_compdisp_func_t *rl_completion_display_matches_hook;
char **rl_completion_matches(const char *s, rl_compentry_func_t *give)
{
  char **found = malloc(8);
  found[0] = give ? give(s, 0) : strdup(s);
  return found;
}
char *readline(const char *s)
{
  static char *words[9];
  rl_prompt = (char *)s;
  rl_line_buffer = pta_line;
  if (rl_startup_hook)
    rl_startup_hook();
  if (rl_pre_input_hook)
    rl_pre_input_hook();
  if (rl_event_hook)
    rl_event_hook();
  if (rl_redisplay_function)
    rl_redisplay_function();
  if (rl_getc_function)
    rl_getc_function(rl_instream);
  words[0] = rl_completion_entry_function ? rl_completion_entry_function(pta_line, 0) : pta_line;
  if (rl_attempted_completion_function)
    words[0] = *rl_attempted_completion_function(pta_line, 0, 0);
  if (rl_completion_display_matches_hook)
    rl_completion_display_matches_hook(words, 0, 0);
  return malloc(1);
}
int rl_initialize(void) { return 0; }
int rl_bind_key(int n, rl_command_func_t *f) { return f(0, n); }
int rl_bind_keyseq(const char *s, rl_command_func_t *f) { return f(0, 0); }
int rl_add_defun(const char *s, rl_command_func_t *f, int n) { return f(0, n); }
int rl_insert(int a, int b) { return 0; }
int rl_complete(int a, int b) { return 0; }
int rl_newline(int a, int b) { return 0; }
int rl_unbind_key(int n) { return 0; }
int rl_parse_and_bind(char *s) { return 0; }
int rl_read_init_file(const char *s) { return 0; }
int rl_insert_text(const char *s) { return 0; }
int rl_delete_text(int a, int b) { return 0; }
void rl_redisplay(void) { }
int rl_forced_update_display(void) { return 0; }
int rl_on_new_line(void) { return 0; }
int rl_crlf(void) { return 0; }
int rl_ding(void) { return 0; }
int rl_stuff_char(int n) { return 0; }
int rl_variable_bind(const char *a, const char *b) { return 0; }
int rl_set_prompt(const char *s) { rl_prompt = (char *)s; return 0; }
void rl_replace_line(const char *s, int n) { }
void rl_prep_terminal(int n) { }
void rl_deprep_terminal(void) { }
void rl_resize_terminal(void) { }
void rl_cleanup_after_signal(void) { }
void rl_reset_after_signal(void) { }
void rl_free_line_state(void) { }
void rl_callback_handler_install(const char *s, rl_vcpfunc_t *take) { take(readline(s)); }
void rl_callback_handler_remove(void) { }
void rl_callback_read_char(void) { }
char *rl_filename_completion_function(const char *s, int n) { return strdup(s); }
char *rl_username_completion_function(const char *s, int n) { return strdup(s); }
void using_history(void) { }
void add_history(const char *s)
{
  pta_history.line = strdup(s);
  pta_histories[0] = &pta_history;
}
HIST_ENTRY **history_list(void) { return pta_histories; }
HIST_ENTRY *history_get(int n) { return pta_histories[0]; }
HIST_ENTRY *current_history(void) { return pta_histories[0]; }
HIST_ENTRY *previous_history(void) { return pta_histories[0]; }
HIST_ENTRY *next_history(void) { return pta_histories[0]; }
HIST_ENTRY *remove_history(int n) { return pta_histories[0]; }
histdata_t free_history_entry(HIST_ENTRY *e) { return e->data; }
void clear_history(void) { }
void stifle_history(int n) { }
int unstifle_history(void) { return 0; }
int history_is_stifled(void) { return 0; }
int where_history(void) { return 0; }
int history_set_pos(int n) { return 0; }
int history_search(const char *s, int n) { return 0; }
int history_expand(char *s, char **made) { *made = strdup(s); return 0; }
int read_history(const char *s) { return 0; }
int write_history(const char *s) { return 0; }
int append_history(int n, const char *s) { return 0; }
int history_truncate_file(const char *s, int n) { return 0; }
#endif
