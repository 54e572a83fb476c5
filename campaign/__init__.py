"""The package of `predator campaign`: from a plan to tables and a page of what many runs printed.

main.py reads the call and starts Snakemake on the workflow in Snakefile. The data flows through the modules
in this order:

    plan             checks a plan against schema.json and expands it
    campaign_file    has the expanded plan, campaign.json: groups of runs that differ by their seeds, and
                     batches, which are jobs
    batch            is one job: it calls predator and puts the printed texts into a file of result_files
    run_results      parses the texts of one run, and finds its lines again in other runs
                     (invalidations: the text of `blame`)
    observations     collects the numbers of each line, object and pair of instructions over the seeds
    tables           writes these as tables; campaign_page draws them; rerun_commands repeats a run

usual_schedule and prediction_accuracy are scripts that compare the results of the studies. Nothing here
counts: every number is one that predator printed, or says in how many runs it printed one."""
