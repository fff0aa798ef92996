/* TPC-C on SQLite: in memory, with prepared statements, in one thread, each call as one transaction.
 *
 * It reads a TPC-C script on standard input, and writes what the command `serial` writes. Rows and calls are those of
 * the script. The tables and procedures stand here. */
#include <ctype.h>
#include <inttypes.h>
#include <sqlite3.h>
#include <stdarg.h>
#include <stdbool.h>
#include <stdio.h>
#include <stdlib.h>
#include <string.h>
#include <strings.h>

#define D "%" PRId64

enum { ARGUMENTS = 16, LINES = 15, ROOM = 4096 };

typedef char text[512];

struct line {
    int64_t item, supply, quantity;
};

struct call {
    char name[32];
    int64_t number[ARGUMENTS];
    text word[ARGUMENTS];
    int count;
    union {
        struct line line[LINES];
        int64_t flat[3 * LINES];
    };
    int flat_count;
};

static const char *const TABLES[] = {
    "warehouse (w_id INTEGER PRIMARY KEY, w_name TEXT, w_tax INTEGER, w_ytd INTEGER)",
    "district (d_w_id INTEGER, d_id INTEGER, d_name TEXT, d_tax INTEGER, d_ytd INTEGER, d_next_o_id INTEGER,"
    " PRIMARY KEY (d_w_id, d_id)) WITHOUT ROWID",
    "customer (c_w_id INTEGER, c_d_id INTEGER, c_id INTEGER, c_first TEXT, c_middle TEXT, c_last TEXT, c_credit TEXT,"
    " c_discount INTEGER, c_balance INTEGER, c_ytd_payment INTEGER, c_payment_cnt INTEGER, c_delivery_cnt INTEGER,"
    " c_data TEXT, PRIMARY KEY (c_w_id, c_d_id, c_id)) WITHOUT ROWID",
    "history (h_id INTEGER PRIMARY KEY, h_c_id INTEGER, h_c_d_id INTEGER, h_c_w_id INTEGER, h_d_id INTEGER,"
    " h_w_id INTEGER, h_date INTEGER, h_amount INTEGER, h_data TEXT)",
    "new_order (no_w_id INTEGER, no_d_id INTEGER, no_o_id INTEGER, PRIMARY KEY (no_w_id, no_d_id, no_o_id)) WITHOUT "
    "ROWID",
    "orders (o_w_id INTEGER, o_d_id INTEGER, o_id INTEGER, o_c_id INTEGER, o_entry_d INTEGER, o_carrier_id INTEGER,"
    " o_ol_cnt INTEGER, o_all_local INTEGER, PRIMARY KEY (o_w_id, o_d_id, o_id)) WITHOUT ROWID",
    "order_line (ol_w_id INTEGER, ol_d_id INTEGER, ol_o_id INTEGER, ol_number INTEGER, ol_i_id INTEGER,"
    " ol_supply_w_id INTEGER, ol_delivery_d INTEGER, ol_quantity INTEGER, ol_amount INTEGER,"
    " PRIMARY KEY (ol_w_id, ol_d_id, ol_o_id, ol_number)) WITHOUT ROWID",
    "item (i_id INTEGER PRIMARY KEY, i_name TEXT, i_price INTEGER, i_data TEXT)",
    "stock (s_w_id INTEGER, s_i_id INTEGER, s_quantity INTEGER, s_ytd INTEGER, s_order_cnt INTEGER,"
    " s_remote_cnt INTEGER, s_data TEXT, PRIMARY KEY (s_w_id, s_i_id)) WITHOUT ROWID"};
enum { TABLE_COUNT = sizeof TABLES / sizeof *TABLES };

static sqlite3 *db;

static void fail(const char *what) {
    fprintf(stderr, "sqlite: %s: %s\n", what, db ? sqlite3_errmsg(db) : "");
    exit(1);
}

static sqlite3_stmt *prepare(const char *sql) {
    sqlite3_stmt *statement;
    if (sqlite3_prepare_v3(db, sql, -1, SQLITE_PREPARE_PERSISTENT, &statement, NULL) != SQLITE_OK) fail(sql);
    return statement;
}

/* A statement that is prepared where it is first reached. */
#define SQL(sql)                                                                                                       \
    ({                                                                                                                 \
        static sqlite3_stmt *prepared;                                                                                 \
        if (!prepared) prepared = prepare(sql);                                                                        \
        prepared;                                                                                                      \
    })

/* Whether there is a next row. The statement is reset after the last one. */
static bool step(sqlite3_stmt *statement) {
    int code = sqlite3_step(statement);
    if (code == SQLITE_ROW) return true;
    if (code != SQLITE_DONE) fail(sqlite3_sql(statement));
    sqlite3_reset(statement);
    return false;
}

/* Binds values by a format: `i` is an int64_t, and `t` a text that stays. */
static void bind_list(sqlite3_stmt *statement, const char *format, va_list *values) {
    for (int n = 1; *format; n++, format++)
        if (*format == 'i')
            sqlite3_bind_int64(statement, n, va_arg(*values, int64_t));
        else
            sqlite3_bind_text(statement, n, va_arg(*values, const char *), -1, SQLITE_STATIC);
}

static sqlite3_stmt *bind(sqlite3_stmt *statement, const char *format, ...) {
    va_list values;
    va_start(values, format);
    bind_list(statement, format, &values);
    va_end(values);
    return statement;
}

/* Binds values by a format, takes the columns of the first row by another, and tells whether there is one. A row of
 * NULL, as MIN of no rows has it, is none. */
static bool find(sqlite3_stmt *statement, const char *in, const char *out, ...) {
    va_list values;
    va_start(values, out);
    bind_list(statement, in, &values);
    bool found = step(statement) && sqlite3_column_type(statement, 0) != SQLITE_NULL;
    for (int n = 0; found && out[n]; n++)
        if (out[n] == 'i')
            *va_arg(values, int64_t *) = sqlite3_column_int64(statement, n);
        else
            snprintf(va_arg(values, char *), sizeof(text), "%s", (const char *)sqlite3_column_text(statement, n));
    va_end(values);
    sqlite3_reset(statement);
    return found;
}

static int64_t integer(sqlite3_stmt *statement, int column) { return sqlite3_column_int64(statement, column); }

/* The lines of the call that is executed. */
static char reply[1 << 16];
static size_t reply_length;

static void put(const char *format, ...) {
    va_list values;
    va_start(values, format);
    reply_length += (size_t)vsnprintf(reply + reply_length, sizeof reply - reply_length, format, values);
    va_end(values);
    if (reply_length >= sizeof reply) fail("a reply is too long");
}

static bool enter_line(int64_t w, int64_t d, int64_t o, int64_t n, struct line l, int64_t *sum) {
    int64_t price = 0, quantity = 0;
    text name = "", i_data = "", s_data = "";
    if (!find(SQL("SELECT i_price, i_name, i_data FROM item WHERE i_id = ?"), "i", "itt", l.item, &price, name, i_data))
        return false;
    find(SQL("SELECT s_quantity, s_data FROM stock WHERE s_w_id = ? AND s_i_id = ?"), "ii", "it", l.supply, l.item,
         &quantity, s_data);
    quantity = quantity - l.quantity + (quantity >= l.quantity + 10 ? 0 : 91);
    step(bind(SQL("UPDATE stock SET s_quantity = ?, s_ytd = s_ytd + ?, s_order_cnt = s_order_cnt + 1"
                  " WHERE s_w_id = ? AND s_i_id = ?"),
              "iiii", quantity, l.quantity, l.supply, l.item));
    if (l.supply != w)
        step(bind(SQL("UPDATE stock SET s_remote_cnt = s_remote_cnt + 1 WHERE s_w_id = ? AND s_i_id = ?"), "ii",
                  l.supply, l.item));
    int64_t amount = l.quantity * price;
    *sum += amount;
    const char *brand = strstr(i_data, "ORIGINAL") && strstr(s_data, "ORIGINAL") ? "B" : "G";
    step(bind(SQL("INSERT INTO order_line VALUES (?, ?, ?, ?, ?, ?, 0, ?, ?)"), "iiiiiiii", w, d, o, n, l.item,
              l.supply, l.quantity, amount));
    put(D ",'%s'," D "," D ",'%s'," D "," D "\n", l.item, name, l.quantity, quantity, brand, price, amount);
    return true;
}

static bool new_order(const struct call *call) {
    int64_t w = call->number[0], d = call->number[1], c = call->number[2], date = call->number[3];
    int64_t w_tax = 0, d_tax = 0, o = 0, discount = 0, local = 1, sum = 0, count = call->flat_count / 3;
    text last = "", credit = "";
    find(SQL("SELECT w_tax FROM warehouse WHERE w_id = ?"), "i", "i", w, &w_tax);
    find(SQL("SELECT d_tax FROM district WHERE d_w_id = ? AND d_id = ?"), "ii", "i", w, d, &d_tax);
    find(SQL("SELECT d_next_o_id FROM district WHERE d_w_id = ? AND d_id = ?"), "ii", "i", w, d, &o);
    step(bind(SQL("UPDATE district SET d_next_o_id = d_next_o_id + 1 WHERE d_w_id = ? AND d_id = ?"), "ii", w, d));
    find(SQL("SELECT c_discount, c_last, c_credit FROM customer WHERE c_w_id = ? AND c_d_id = ? AND c_id = ?"), "iii",
         "itt", w, d, c, &discount, last, credit);
    for (int n = 0; n < count; n++) local = local && call->line[n].supply == w;
    step(bind(SQL("INSERT INTO orders VALUES (?, ?, ?, ?, ?, 0, ?, ?)"), "iiiiiii", w, d, o, c, date, count, local));
    step(bind(SQL("INSERT INTO new_order VALUES (?, ?, ?)"), "iii", w, d, o));
    for (int64_t n = 0; n < count; n++)
        if (!enter_line(w, d, o, n + 1, call->line[n], &sum)) return false;
    int64_t total = sum * (10000 - discount) * (10000 + w_tax + d_tax) / 100000000;
    put(D ",'%s','%s'," D "," D "," D "," D "," D "\n", o, last, credit, discount, w_tax, d_tax, count, total);
    return true;
}

/* The customer that a call names by number, or by last name where that is 0. */
static int64_t customer(int64_t w, int64_t d, int64_t c, const char *last) {
    if (c != 0) return c;
    int64_t n = 0, id = 0;
    find(SQL("SELECT COUNT(*) FROM customer WHERE c_w_id = ? AND c_d_id = ? AND c_last = ?"), "iit", "i", w, d, last,
         &n);
    if (n == 0) fail("no customer");
    find(SQL("SELECT c_id FROM customer WHERE c_w_id = ? AND c_d_id = ? AND c_last = ? ORDER BY c_first LIMIT 1 OFFSET "
             "?"),
         "iiti", "i", w, d, last, (n + 1) / 2 - 1, &id);
    return id;
}

static bool payment(const struct call *call) {
    int64_t w = call->number[0], d = call->number[1], cw = call->number[2], cd = call->number[3];
    int64_t amount = call->number[6], date = call->number[7], h = call->number[8], balance = 0;
    text w_name = "", d_name = "", credit = "", data = "", h_data;
    step(bind(SQL("UPDATE warehouse SET w_ytd = w_ytd + ? WHERE w_id = ?"), "ii", amount, w));
    find(SQL("SELECT w_name FROM warehouse WHERE w_id = ?"), "i", "t", w, w_name);
    step(bind(SQL("UPDATE district SET d_ytd = d_ytd + ? WHERE d_w_id = ? AND d_id = ?"), "iii", amount, w, d));
    find(SQL("SELECT d_name FROM district WHERE d_w_id = ? AND d_id = ?"), "ii", "t", w, d, d_name);
    int64_t id = customer(cw, cd, call->number[4], call->word[5]);
    step(bind(SQL("UPDATE customer SET c_balance = c_balance - ?1, c_ytd_payment = c_ytd_payment + ?1,"
                  " c_payment_cnt = c_payment_cnt + 1 WHERE c_w_id = ?2 AND c_d_id = ?3 AND c_id = ?4"),
              "iiii", amount, cw, cd, id));
    find(SQL("SELECT c_credit, c_data, c_balance FROM customer WHERE c_w_id = ? AND c_d_id = ? AND c_id = ?"), "iii",
         "tti", cw, cd, id, credit, data, &balance);
    if (!strcmp(credit, "BC")) {
        char longer[1024];
        snprintf(longer, sizeof longer, D " " D " " D " " D " " D " " D " %s", id, cd, cw, d, w, amount, data);
        longer[500] = 0;
        step(bind(SQL("UPDATE customer SET c_data = ? WHERE c_w_id = ? AND c_d_id = ? AND c_id = ?"), "tiii", longer,
                  cw, cd, id));
    }
    snprintf(h_data, sizeof h_data, "%.20s    %.20s", w_name, d_name);
    step(bind(SQL("INSERT INTO history VALUES (?, ?, ?, ?, ?, ?, ?, ?, ?)"), "iiiiiiiit", h, id, cd, cw, d, w, date,
              amount, h_data));
    put(D ",'%s'," D "," D "\n", id, credit, balance, amount);
    return true;
}

static bool order_status(const struct call *call) {
    int64_t w = call->number[0], d = call->number[1], balance = 0, o = 0, date = 0, carrier = 0;
    int64_t id = customer(w, d, call->number[2], call->word[3]);
    text first = "", last = "";
    find(SQL("SELECT c_balance, c_first, c_last FROM customer WHERE c_w_id = ? AND c_d_id = ? AND c_id = ?"), "iii",
         "itt", w, d, id, &balance, first, last);
    put(D "," D ",'%s','%s'\n", id, balance, first, last);
    if (!find(SQL("SELECT o_id, o_entry_d, o_carrier_id FROM orders WHERE o_w_id = ? AND o_d_id = ? AND o_c_id = ?"
                  " ORDER BY o_id DESC LIMIT 1"),
              "iii", "iii", w, d, id, &o, &date, &carrier))
        return true;
    put(D "," D "," D "\n", o, date, carrier);
    sqlite3_stmt *lines =
        bind(SQL("SELECT ol_i_id, ol_supply_w_id, ol_quantity, ol_amount, ol_delivery_d FROM order_line"
                 " WHERE ol_w_id = ? AND ol_d_id = ? AND ol_o_id = ? ORDER BY ol_number"),
             "iii", w, d, o);
    while (step(lines))
        put(D "," D "," D "," D "," D "\n", integer(lines, 0), integer(lines, 1), integer(lines, 2), integer(lines, 3),
            integer(lines, 4));
    return true;
}

static void deliver(int64_t w, int64_t d, int64_t carrier, int64_t date) {
    int64_t o = 0, c = 0, sum = 0;
    if (!find(SQL("SELECT MIN(no_o_id) FROM new_order WHERE no_w_id = ? AND no_d_id = ?"), "ii", "i", w, d, &o)) return;
    step(bind(SQL("DELETE FROM new_order WHERE no_w_id = ? AND no_d_id = ? AND no_o_id = ?"), "iii", w, d, o));
    find(SQL("SELECT o_c_id FROM orders WHERE o_w_id = ? AND o_d_id = ? AND o_id = ?"), "iii", "i", w, d, o, &c);
    step(bind(SQL("UPDATE orders SET o_carrier_id = ? WHERE o_w_id = ? AND o_d_id = ? AND o_id = ?"), "iiii", carrier,
              w, d, o));
    step(bind(SQL("UPDATE order_line SET ol_delivery_d = ? WHERE ol_w_id = ? AND ol_d_id = ? AND ol_o_id = ?"), "iiii",
              date, w, d, o));
    find(SQL("SELECT SUM(ol_amount) FROM order_line WHERE ol_w_id = ? AND ol_d_id = ? AND ol_o_id = ?"), "iii", "i", w,
         d, o, &sum);
    step(bind(SQL("UPDATE customer SET c_balance = c_balance + ?, c_delivery_cnt = c_delivery_cnt + 1"
                  " WHERE c_w_id = ? AND c_d_id = ? AND c_id = ?"),
              "iiii", sum, w, d, c));
    put(D "," D "\n", d, o);
}

static bool delivery(const struct call *call) {
    int64_t w = call->number[0];
    sqlite3_stmt *districts = bind(SQL("SELECT d_id FROM district WHERE d_w_id = ? ORDER BY d_id"), "i", w);
    while (step(districts)) deliver(w, integer(districts, 0), call->number[1], call->number[2]);
    return true;
}

static bool stock_level(const struct call *call) {
    int64_t w = call->number[0], d = call->number[1], o = 0, count = 0;
    find(SQL("SELECT d_next_o_id FROM district WHERE d_w_id = ? AND d_id = ?"), "ii", "i", w, d, &o);
    sqlite3_stmt *items = bind(SQL("SELECT DISTINCT ol_i_id FROM order_line WHERE ol_w_id = ?1 AND ol_d_id = ?2"
                                   " AND ol_o_id >= ?3 - 20 AND ol_o_id < ?3"),
                               "iii", w, d, o);
    while (step(items)) {
        int64_t low = 0;
        find(SQL("SELECT COUNT(*) FROM stock WHERE s_w_id = ? AND s_i_id = ? AND s_quantity < ?"), "iii", "i", w,
             integer(items, 0), call->number[2], &low);
        count += low;
    }
    put(D "\n", count);
    return true;
}

static const struct {
    const char *name;
    bool (*execute)(const struct call *);
} PROCEDURES[] = {{"new_order", new_order},
                  {"payment", payment},
                  {"order_status", order_status},
                  {"delivery", delivery},
                  {"stock_level", stock_level}};

static void execute(const struct call *call) {
    static long number;
    for (size_t n = 0; n < sizeof PROCEDURES / sizeof *PROCEDURES; n++)
        if (!strcmp(PROCEDURES[n].name, call->name)) {
            reply_length = 0;
            step(SQL("BEGIN"));
            bool done = PROCEDURES[n].execute(call);
            step(done ? SQL("COMMIT") : SQL("ROLLBACK"));
            printf(done ? "reply %ld done\n" : "reply %ld rolled back 'Item number is not valid'\n", number++);
            if (done) fwrite(reply, 1, reply_length, stdout);
            return;
        }
    fail(call->name);
}

/* Takes a call from its line, behind the word CALL. Numbers at the depth of rows are those of its lines. */
static void read_call(const char *at, struct call *call) {
    call->count = call->flat_count = 0;
    call->name[0] = 0;
    sscanf(at, " %31[a-z_]", call->name);
    int depth = 0;
    while (*at && *at != ';') {
        if (isdigit(*at)) {
            int64_t number = strtoll(at, (char **)&at, 10);
            if (depth == 1 && call->count < ARGUMENTS)
                call->number[call->count++] = number;
            else if (call->flat_count < 3 * LINES)
                call->flat[call->flat_count++] = number;
            continue;
        }
        if (*at == '\'' && call->count < ARGUMENTS) {
            call->word[call->count][0] = 0;
            sscanf(at, "'%511[^']", call->word[call->count++]);
            at = strchr(at + 1, '\'');
        }
        depth += (*at == '(') - (*at == ')');
        at++;
    }
}

/* Loads the lines of a block into a table. */
static void load(const char *table) {
    char line[ROOM], sql[256];
    sqlite3_stmt *insert = NULL;
    step(SQL("BEGIN"));
    while (fgets(line, sizeof line, stdin) && strncmp(line, ">>", 2)) {
        int columns = 1;
        for (const char *at = line; *at; at++) columns += *at == ',';
        if (!insert) {
            int length = snprintf(sql, sizeof sql, "INSERT INTO %s VALUES (?", table);
            for (int n = 1; n < columns; n++) length += snprintf(sql + length, sizeof sql - (size_t)length, ",?");
            snprintf(sql + length, sizeof sql - (size_t)length, ")");
            insert = prepare(sql);
        }
        char *rest = line;
        for (int n = 1; n <= columns; n++) sqlite3_bind_text(insert, n, strsep(&rest, ",\n"), -1, SQLITE_STATIC);
        step(insert);
    }
    sqlite3_finalize(insert);
    step(SQL("COMMIT"));
}

static void open_database(void) {
    sqlite3_config(SQLITE_CONFIG_SINGLETHREAD);
    sqlite3_config(SQLITE_CONFIG_MEMSTATUS, 0);
    if (sqlite3_open(":memory:", &db) != SQLITE_OK) fail("open");
    for (int n = 0; n < TABLE_COUNT; n++) {
        char sql[1024];
        snprintf(sql, sizeof sql, "CREATE TABLE %s", TABLES[n]);
        if (sqlite3_exec(db, sql, NULL, NULL, NULL) != SQLITE_OK) fail(sql);
    }
}

static void write_table(const char *definition) {
    char sql[64], name[32];
    sscanf(definition, "%31s", name);
    snprintf(sql, sizeof sql, "SELECT * FROM %s", name);
    sqlite3_stmt *rows = prepare(sql);
    printf("table %s\n", name);
    while (step(rows))
        for (int n = 0, columns = sqlite3_column_count(rows); n < columns; n++)
            printf("%s%s", sqlite3_column_text(rows, n), n + 1 < columns ? "," : "\n");
    sqlite3_finalize(rows);
}

int main(void) {
    char line[ROOM], table[32];
    static struct call call;
    open_database();
    while (fgets(line, sizeof line, stdin)) {
        if (!strncasecmp(line, "copy ", 5)) {
            sscanf(line + 5, " %31[a-z_]", table);
            load(table);
        } else if (!strncasecmp(line, "call ", 5)) {
            read_call(line + 5, &call);
            execute(&call);
        }
    }
    for (int n = 0; n < TABLE_COUNT; n++) write_table(TABLES[n]);
    puts("end");
    return 0;
}
