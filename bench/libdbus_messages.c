/* Reads or writes one D-Bus message so many times by libdbus, for the benchmark.
 *
 * Use: libdbus_messages read|write COUNT FILE. Reading takes the message apart and looks at each value;
 * writing puts each value of it into a new message, and takes the bytes of that. */
#include <dbus/dbus.h>
#include <stdio.h>
#include <stdlib.h>
#include <string.h>

static unsigned long values;

static void look(DBusMessageIter *at) {
  for (; dbus_message_iter_get_arg_type(at) != DBUS_TYPE_INVALID; dbus_message_iter_next(at)) {
    int type = dbus_message_iter_get_arg_type(at);
    if (dbus_type_is_basic(type)) {
      DBusBasicValue value;
      dbus_message_iter_get_basic(at, &value);
      values++;
    } else {
      DBusMessageIter inner;
      dbus_message_iter_recurse(at, &inner);
      look(&inner);
    }
  }
}

static void copy(DBusMessageIter *from, DBusMessageIter *to) {
  for (; dbus_message_iter_get_arg_type(from) != DBUS_TYPE_INVALID; dbus_message_iter_next(from)) {
    int type = dbus_message_iter_get_arg_type(from);
    if (dbus_type_is_basic(type)) {
      DBusBasicValue value;
      dbus_message_iter_get_basic(from, &value);
      if (!dbus_message_iter_append_basic(to, type, &value)) exit(3);
    } else {
      DBusMessageIter inner, made;
      char *signature = NULL;
      dbus_message_iter_recurse(from, &inner);
      if (type == DBUS_TYPE_VARIANT) {
        signature = dbus_message_iter_get_signature(&inner);
      } else if (type == DBUS_TYPE_ARRAY) {
        char *whole = dbus_message_iter_get_signature(from);
        signature = strdup(whole + 1);
        dbus_free(whole);
      }
      if (!dbus_message_iter_open_container(to, type, signature, &made)) exit(3);
      copy(&inner, &made);
      dbus_message_iter_close_container(to, &made);
      if (type == DBUS_TYPE_VARIANT) dbus_free(signature);
      else free(signature);
    }
  }
}

static void read_once(const char *bytes, int length) {
  DBusMessage *message = dbus_message_demarshal(bytes, length, NULL);
  DBusMessageIter at;
  if (!message) exit(1);
  if (dbus_message_iter_init(message, &at)) look(&at);
  dbus_message_unref(message);
}

static void write_once(DBusMessage *from) {
  DBusMessage *message = dbus_message_new(dbus_message_get_type(from));
  DBusMessageIter at, to;
  char *bytes;
  int length;
  dbus_message_set_serial(message, dbus_message_get_serial(from));
  if (dbus_message_get_reply_serial(from)) dbus_message_set_reply_serial(message, dbus_message_get_reply_serial(from));
  dbus_message_iter_init_append(message, &to);
  if (dbus_message_iter_init(from, &at)) copy(&at, &to);
  if (!dbus_message_marshal(message, &bytes, &length)) exit(3);
  values += length;
  free(bytes);
  dbus_message_unref(message);
}

int main(int count, char **words) {
  static char bytes[1 << 21];
  if (count != 4) return 1;
  FILE *file = fopen(words[3], "rb");
  if (!file) return 1;
  int length = fread(bytes, 1, sizeof bytes, file);
  DBusMessage *message = dbus_message_demarshal(bytes, length, NULL);
  if (!message) return 1;
  for (long times = atol(words[2]); times > 0; times--) {
    if (strcmp(words[1], "read") == 0) read_once(bytes, length);
    else write_once(message);
  }
  printf("%lu\n", values);
  return 0;
}
