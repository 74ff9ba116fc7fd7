-- sqlite3 :memory: < instances.sql: tells when a device comes for the third time.
create table rows(time text, dev text);
.mode csv
.import --skip 1 FILE0 rows
.mode list
select substr(time || '000000000', 1, instr(time, '.') + 9) || ' trigger_1 "the third time"'
from (select rowid as place, time, row_number() over (partition by dev order by rowid) as many from rows)
where many = 3
order by place;
