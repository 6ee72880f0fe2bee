{% include 'header.sql' %}
select {{ columns | quoted }} from {{ params.table }} where day between '{{ data_interval_start | ds }}' and '{{ data_interval_end | ds_nodash }}';
