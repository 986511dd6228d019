create table fruit(id integer primary key, name text unique, price real);
create index by_price on fruit(price);
insert into fruit(name, price) values ('pears', 1.25), ('plums', 0.2), ('figs', 0.75), ('quinces', 2.5);
create table sold(id integer references fruit(id), count integer);
with recursive day(n) as (values(1) union all select n + 1 from day where n < 12)
    insert into sold select n % 4 + 1, n * n from day;
.mode column
select name, sum(count) as sold, printf('%.2f', sum(count) * price) as income
    from fruit join sold using (id) group by id order by income * 1.0 desc;
begin;
delete from fruit where price < 1;
rollback;
select count(*), group_concat(name, ' ') from (select name from fruit order by name);
select quote(hex('flat')), round(2.5), upper('ab' || 'cd'), 7 / 2, 7 % 4, 1e3;
insert into fruit(name) values ('figs');
pragma integrity_check;
