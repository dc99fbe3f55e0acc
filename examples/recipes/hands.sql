-- Tables of SQLite from the TSV that handref writes, in the folder of these files:
--   handref many judge  --tsv PATH.. > judge.tsv
--   handref many replay --tsv PATH.. > replay.tsv
-- What an earlier call has read is replaced.
-- `.mode tabs` would take quotation marks in names of files for its own.
drop view if exists seats;
drop table if exists verdicts;
drop table if exists steps;
.mode ascii
.separator "\t" "\n"
.import judge.tsv verdicts
.import replay.tsv steps
create index steps_of on steps (file, hand);
-- what each seat of a hand started and ended with
create view seats as
    select file, cast(hand as integer) as hand, cast(seat as integer) as seat,
        max(case when event = '0' then stack + put end) as start,
        max(case when text = 'finish' then stack + 0 end) as finish
    from steps where seat <> '' group by file, hand, seat;
