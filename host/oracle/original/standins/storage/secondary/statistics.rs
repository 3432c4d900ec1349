// Stands in for statistics.rs: document 01 leaves the statistics out.
use risinglight_proto::rowset::BlockStatistics;

pub struct StatisticsBuilder;

impl StatisticsBuilder {
    pub fn new() -> Self {
        StatisticsBuilder
    }

    pub fn add_item(&mut self, _item: Option<&[u8]>) {}

    pub fn get_statistics(self) -> Vec<BlockStatistics> {
        Vec::new()
    }
}
