-- The Pareto of a lot: which sites the reports of its dies point to, in the folder that has
-- `reports/DIE`.
.bail on
CREATE TABLE candidates (die TEXT, rank INTEGER, place INTEGER, tfsf INTEGER, tfsp INTEGER, tpsf INTEGER, site TEXT);
.mode csv
.import "|find reports -type f -exec awk -f \"$LOT/candidates.awk\" {} +" candidates

-- The sites of a die's best ranked candidates: of all that have the counts of the first.
CREATE TABLE best AS
    SELECT DISTINCT tied.die, tied.site
    FROM candidates AS first JOIN candidates AS tied USING (die, tfsf, tfsp, tpsf)
    WHERE first.rank = 1;

-- A die has one vote, which these sites share.
CREATE TABLE votes AS
    SELECT die, site, 1.0 / count(*) OVER (PARTITION BY die) AS vote FROM best ORDER BY site, die;

-- No die tells apart the sites that are best in the same dies: they are one row.
CREATE TABLE pareto AS
    WITH sites AS (SELECT site, sum(vote) AS votes, count(*) AS dies, group_concat(die) AS of FROM votes GROUP BY site)
    SELECT sum(votes) AS votes, dies, group_concat(site, ' = ') AS sites FROM sites GROUP BY of ORDER BY 1 DESC, 3;

-- Half a vote's hundredth is added since a sum of shares isn't quite even.
CREATE VIEW shown AS
    SELECT rowid AS row, printf('%.2f', votes + 1e-9) AS votes, dies,
        printf('%.1f', 100 * sum(votes) OVER (ORDER BY rowid) / sum(votes) OVER () + 1e-9) AS percent, sites
    FROM pareto;

.headers on
.mode tabs
.once pareto.tsv
SELECT * FROM shown;
