-- sqlite3 :memory: < two_files.sql: at each second of the rows the mean of a minute's temperatures, the last humidity,
-- and how often a device came.
create table temperatures(time real, dev text, temp integer);
create table humidities(time real primary key, hum integer) without rowid;
.mode csv
.import --skip 1 FILE0 temperatures
.import --skip 1 FILE1 humidities
.mode list
with recursive
    bounds as (select (select min(time) from temperatures) as start,
        max((select max(time) from temperatures), (select max(time) from humidities)) as last),
    seconds(second) as (select 0 union all select second + 1 from seconds, bounds where start + second + 1 <= last),
    panes as (select cast(ceiling(time - start) as integer) as second, sum(temp) as total, count(*) as many,
            sum(dev = 'd0') as came
        from temperatures, bounds group by 1),
    minutes as (select second, sum(coalesce(total, 0)) over minute as total, sum(coalesce(many, 0)) over minute as many,
            sum(coalesce(came, 0)) over (order by second) as seen
        from seconds left join panes using (second) window minute as (order by second rows 59 preceding))
select printf('%.9f trigger_1 "warm and damp"', start + second)
from minutes, bounds
where second > 0 and many > 0 and total / many >= 224 and seen % 2 = 0
    and (select hum from humidities where time <= start + second order by time desc limit 1) > 60
order by second;
